# Hart 0 asks for no pages, which is refused; hart 1 exits.
.text
_start:
    bne a0, x0, leave
    li a7, 2
    ecall
leave:
    li a7, 0
    ecall
