# The letter C.
letter_c:
    li a0, 67
    ret
.size letter_c
