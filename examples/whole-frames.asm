; A way that only frames of the expected length may take: extended data frames with 8 octets of payload, and requests
; (PGN 59904) with 3. The protocol gives both lengths; a frame of another length is one of another protocol, or broken.
; A table does not see the length.

        ld   [0]
        and  #0xe0000000                ; the flags
        jneq #0x80000000, keep          ; no extended data frame

        ld   [0]
        and  #0x03ff0000                ; EDP, DP and PF
        jeq  #0x00ea0000, request
        ldb  [4]                        ; the payload's length
        jeq  #8, pass, keep

request:
        ldb  [4]
        jneq #3, keep
pass:   ret  #1
keep:   ret  #0
