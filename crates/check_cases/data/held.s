# Two harts: hart 1 unmaps a page while hart 0 holds it, and maps it again.
.text
_start:
    lui s0, 18
    bne a0, x0, unmap
    sd s0, 8(s0)
    li a7, 0
    ecall
unmap:
    mv a0, s0
    li a1, 1
    li a7, 3
    ecall
    mv a0, s0
    li a1, 1
    li a2, 3
    li a7, 2
    ecall
    mv a0, s0
    ecall
    ld a3, 8(s0)
    li a7, 1
    ecall
    li a7, 0
    ecall
.rodata
    .word 1
.data
    .dword 0
