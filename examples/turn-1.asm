; One of two machines that share a bus, each with a window in each 2000 cycles: this one starts its accesses in the first
; 300, the other one in those from 1000 on (turn-2.asm). An access takes at most 662 cycles, so one that starts at 299 has
; ended before the other's window opens: no two accesses meet, whatever the two machines do.
.object 2 3 1 70 2 3 2000 0 300
.bank 4 634
.bank 4 662
.symbol words secret array 1 0 0 16
.symbol sum secret scalar 1 2 0 1
        li r1 1
        ldb 0 E r0              ; at 0 + 1: the window is open
        ldb 1 E r1              ; waits for 2000
        li r2 2
        ldb 2 E r2              ; waits for 4000
        ldw r3 0 r0
        ldw r4 1 r0
        add r3 r3 r4
        stw r3 2 r0             ; sum = words[0] + words[8]
        stb 2                   ; waits for 6000
        halt
