; Refused as a core beside choose.asm: its memory is always open.
.object 1 3 1 70 2 3
.bank 4 634
.bank 4 662
li r1 0
ldb 0 D r1
halt
