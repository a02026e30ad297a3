; Counts eight secret places: adds one to the word of a table at each. The table lies in an oblivious bank of eight blocks
; of eight words, so the bus shows that it was read and written and not where. What an access shows of the bank's tree is
; the path of a leaf, and the block gets another leaf by a random word.
.object 1 3 1 70 2 3
.bank 1 634
.bank 1 662
.bank 8 4262
.symbol place secret array 1 0 0 8
.symbol count secret array 2 0 0 64

        li r6 1
        li r7 8
        li r8 3
        ldb 0 E r0
        li r1 0                 ; the number of the place
next:                           ; r2, r3 and r4 may be secret, and slot 0 holds encrypted memory
        .note 0000001c 1 - - - - - - -
        br ge r1 r7 -> done
        ldw r2 0 r1             ; the place
        shr r3 r2 r8            ; the block's number
        ldb 6 O2 r3
        ldw r4 6 r2             ; the word of the block
        add r4 r4 r6
        stw r4 6 r2
        stb 6
        add r1 r1 r6
        jmp -> next
done:
        .note 0000001c 1 - - - - - - -
        halt
