; The way to the engine: every frame passes but a torque/speed control command (TSC1, PGN 0) whose message counter or
; message checksum is wrong, as those of a sender that was cut off or that plays old frames.
;
; TSC1 (SAE J1939-71) has both in its last octet, octet 15 of the record: in the low four bits the counter, which runs
; from 0 to 7, and in the upper four the checksum. The checksum comes from the sum s of the first seven octets of the
; payload, the counter and the four octets of the identifier: the low three bits of (s / 64 mod 4) + s / 8 + s.

        ld   [0]
        and  #0xe3ff0000                ; flags, EDP, DP and PF
        jneq #0x80000000, pass          ; no TSC1
        ldb  [4]
        jneq #8, keep

        ldb  [15]
        and  #0xf
        jgt  #7, keep                   ; the counter
        tax                             ; X is the sum

        ldb  [0]                        ; the identifier
        and  #0x1f                      ; without its flags
        add  x
        tax
        ldb  [1]
        add  x
        tax
        ldb  [2]
        add  x
        tax
        ldb  [3]
        add  x
        tax

        ldb  [8]                        ; the payload
        add  x
        tax
        ldb  [9]
        add  x
        tax
        ldb  [10]
        add  x
        tax
        ldb  [11]
        add  x
        tax
        ldb  [12]
        add  x
        tax
        ldb  [13]
        add  x
        tax
        ldb  [14]
        add  x

        st   M[0]                       ; s
        rsh  #3
        tax
        ld   M[0]
        add  x
        tax                             ; s / 8 + s
        ld   M[0]
        rsh  #6
        and  #3
        add  x
        and  #7
        tax                             ; the checksum that belongs there
        ldb  [15]
        rsh  #4
        jneq x, keep
pass:   ret  #1
keep:   ret  #0
