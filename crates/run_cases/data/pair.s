# Two harts: hart 0 reserves a word, hart 1 stores into its page, and hart 0's store-conditional misses.
.text
_start:
    lui a1, 18
    bne a0, x0, store
    lr.w t0, (a1)
    sc.w t1, x0, (a1)
    ebreak
store:
    sw x0, 0(a1)
    ebreak
.rodata
    .word 1
.data
    .dword 0
