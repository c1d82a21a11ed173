; The way from a body builder's unit to the engine: every frame passes but a torque/speed control command (TSC1, PGN 0)
; that asks for too much, more than 1800 rpm or a torque above 50 %, and a TSC1 that has not 8 octets.
;
; TSC1 (SAE J1939-71), octets of the record: 8 has the override control mode in its low two bits (0 no override, 1 speed,
; 2 torque, 3 limits of both), 9 and 10 the requested speed or speed limit in 0.125 rpm, least significant octet first,
; and 11 the requested torque or torque limit in %, with 125 added. A table does not see these octets.

        ld   [0]
        and  #0xe3ff0000                ; flags, EDP, DP and PF
        jneq #0x80000000, pass          ; no TSC1

        ldb  [4]
        jneq #8, keep
        ldb  [8]
        and  #3
        jeq  #1, speed
        jeq  #2, torque
        jmp  pass                       ; no request, or limits: these only take away

speed:  ldb  [10]
        lsh  #8
        tax
        ldb  [9]
        or   x                          ; the requested speed
        jgt  #14400, keep               ; 1800 rpm
        jmp  pass

torque: ldb  [11]
        jgt  #175, keep                 ; 50 %
pass:   ret  #1
keep:   ret  #0
