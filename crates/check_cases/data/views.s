# Two harts and several generations: hart 0 clones, quiesces and deletes, hart 1 migrates.
.text
_start:
    bne a0, x0, other
    li a7, 8
    ecall
    li a7, 6
    ecall
    li a7, 7
    li a0, 0
    ecall
    li a0, 0
    ecall
    li a0, 0
    ecall
    li a7, 0
    ecall
other:
    li a7, 5
    li a0, 9
    ecall
    li a0, 1
    ecall
    li a0, 1
    ecall
    li a7, 4
    ecall
    li a7, 0
    ecall
