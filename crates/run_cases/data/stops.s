# Hart 1 exits at once, hart 2 traps at once; the others add to a register and go on.
.text
_start:
    li t0, 1
    beq a0, t0, leave
    li t0, 2
    beq a0, t0, trap
loop:
    addi s0, s0, 1
    j loop
leave:
    li a7, 0
    ecall
trap:
    ebreak
