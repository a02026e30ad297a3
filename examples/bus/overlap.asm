; Refused as a core beside choose.asm: its window opens while transfers of the first core may last.
.object 2 3 1 70 2 3 8000 600 601
.bank 4 634
.bank 4 662
li r1 0
ldb 0 D r1
halt
