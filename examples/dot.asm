; The product of two secret vectors of eight words: the sum of the products, word by word.
.object 1 3 1 70 2 3
.bank 1 634
.bank 3 662
.symbol product secret scalar 1 0 0 1
.symbol a secret array 1 1 0 8
.symbol b secret array 1 2 0 8

        li r1 1
        li r2 2
        li r3 8
        ldb 0 E r0
        ldb 1 E r1              ; a
        ldb 2 E r2              ; b
        li r4 0                 ; the place
        li r5 0                 ; the sum
next:                           ; r5 to r8 may be secret, and the slots 0 to 2 hold encrypted memory
        .note 000001e0 1 1 1 - - - - -
        br ge r4 r3 -> done
        ldw r6 1 r4
        ldw r7 2 r4
        mul r8 r6 r7
        add r5 r5 r8
        add r4 r4 r1
        jmp -> next
done:
        .note 000001e0 1 1 1 - - - - -
        stw r5 0 r0
        stb 0
        halt
