# Two harts: hart 0 loads from a page that hart 1 unmaps and maps for reading alone, and stores to it at the end.
.text
_start:
    lui s0, 18
    bne a0, x0, other
    ld t0, 0(s0)
    ld t0, 0(s0)
    ld t0, 0(s0)
    sd t0, 0(s0)
other:
    mv a0, s0
    li a1, 1
    li a7, 3
    ecall
    mv a0, s0
    li a1, 1
    li a2, 1
    li a7, 2
    ecall
    ecall
    li a7, 3
    li a0, 5
    ecall
    li a7, 99
    ecall
    ebreak
.rodata
    .word 1
.data
    .dword 5
