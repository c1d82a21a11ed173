; The way from a diagnostics connector (port 1) into a vehicle (port 0), for answers of more than 8 octets: the tool at
; address 249 may send the two frames of the transport protocol with which a receiver steers such an answer, clear to
; send and end of message acknowledgment (SAE J1939-21). Nothing else leaves into the vehicle: no message that the tool
; would open itself (request to send, broadcast announce), no data transfer and no abort.
;
; TP.CM has PGN 60416, and the first octet of its payload says which of its frames it is.

        ld   ifidx
        jneq #1, keep

        ld   [0]
        and  #0xe3ff00ff                ; flags, EDP, DP, PF and source address
        jneq #0x80ec00f9, keep          ; TP.CM from 249
        ldb  [2]                        ; the destination: one ECU, not all
        jeq  #255, keep

        ldb  [4]
        jneq #8, keep                   ; TP.CM has 8 octets
        ldb  [8]                        ; the control octet
        jeq  #17, pass                  ; clear to send (CTS)
        jneq #19, keep                  ; end of message acknowledgment
pass:   ret  #1
keep:   ret  #0
