; The way from a diagnostics connector (port 1) into a vehicle (port 0): the tool at address 249 may request the engine
; hours (HOURS, PGN 65253), and nothing else leaves into the vehicle. This is the program of port 0.
;
; A table can pass requests (PGN 59904) by their addresses, but does not see which group is wanted. The payload of a
; request says it: three octets, the PGN with its least significant octet first, E5 FE 00 for 65253.

        ld   ifidx                      ; the port at which the frame was taken
        jneq #1, keep

        ld   [0]                        ; the identifier word
        and  #0xe3ff00ff                ; flags, EDP, DP, PF and source address; priority and destination are free
        jneq #0x80ea00f9, keep          ; extended data frame, PF 234, from 249

        ldb  [4]                        ; the payload's length
        jneq #3, keep
        ldh  [8]                        ; the wanted PGN
        jneq #0xe5fe, keep
        ldb  [10]
        jneq #0, keep
        ret  #1                         ; passes

keep:   ret  #0
