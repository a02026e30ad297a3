; Looks up the word of a table at a secret index. The table lies in an oblivious bank, so the bus shows that it was read
; and not where. A block has eight words: the index over 8 is the block's number, and the index the word's number within
; it, modulo 8. Both wrap, so with 32 words in four blocks the index -1 names the last word: shr keeps the sign, the
; block is -1 modulo 4, and the word is -1 modulo 8.
.object 1 3 1 70 2 3
.bank 1 634
.bank 1 662
.bank 4 4262
.symbol at secret scalar 1 0 0 1
.symbol found secret scalar 1 0 1 1
.symbol table secret array 2 0 0 32

        li r1 3
        ldb 0 E r0
        ldw r2 0 r0             ; at
        shr r3 r2 r1            ; the block's number
        ldb 1 O2 r3
        ldw r4 1 r2             ; the word
        li r5 1
        stw r4 0 r5             ; found
        stb 0
        halt
