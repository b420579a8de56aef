# Two harts, which add to one word, and the second of which asks for its generation and puts a byte.
.text
_start:
    lui s0, 18
    li t0, 1
    amoadd.d t1, t0, (s0)
    li a7, 4
    ecall
    li a7, 1
    ecall
    li a7, 0
    ecall
.rodata
    .word 1
.data
    .dword 0
