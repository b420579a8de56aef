# Each hart adds 1 to a counter 50 times, and exits with its number.
.text
_start:
    la s0, counter
    li s1, 50
    li t0, 1
again:
    amoadd.d a0, t0, (s0)
    addi s1, s1, -1
    bne s1, x0, again
    li a7, 0
    ecall
.data
counter:
    .dword 0
