# The letter B, which stands in data of the patch.
letter_b:
    la a1, value
    lbu a0, 0(a1)
    ret
.size letter_b
.data
value:
    .ascii "B"
