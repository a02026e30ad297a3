; The other of the two machines of turn-1.asm: its accesses start in the 300 cycles from 1000 on of each 2000.
.object 2 3 1 70 2 3 2000 1000 1300
.bank 4 634
.bank 4 662
.symbol words secret array 1 0 0 16
.symbol sum secret scalar 1 2 0 1
        li r1 1
        ldb 0 E r0              ; waits for 1000
        ldb 1 E r1              ; waits for 3000
        li r2 2
        ldb 2 E r2              ; waits for 5000
        ldw r3 0 r0
        ldw r4 1 r0
        add r3 r3 r4
        stw r3 2 r0             ; sum = words[0] + words[8]
        stb 2                   ; waits for 7000
        halt
