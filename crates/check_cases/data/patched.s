# The hart puts the letter of a function, goes to the newest generation, and does both again.
.text
_start:
    addi s0, x0, 3
again:
    call letter
    li a7, 1
    ecall
    li a7, 6
    ecall
    addi s0, s0, -1
    bne s0, x0, again
    li a7, 0
    ecall
letter:
    li a0, 65
    ret
.size letter
