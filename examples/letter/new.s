# What takes the place of letter.
        .text
        .globl letter_new
letter_new:
        li   a0, 0x42          # a B
        ret
        .size letter_new
