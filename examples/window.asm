; Reads a block of plain memory, which is open for the first cycle of each ten alone: the load comes at cycle 1 and waits
; for cycle 10.
.object 2 3 1 70 2 3 10 0 1
.bank 4 634
.bank 4 662
li r1 0
ldb 0 D r1
halt
