# What takes the place of digit, one function for each patch.
        .text
        .globl one
one:    li   a0, 0x31
        ret
        .size one
        .globl two
two:    li   a0, 0x32
        ret
        .size two
        .globl three
three:  li   a0, 0x33
        ret
        .size three
        .globl four
four:   li   a0, 0x34
        ret
        .size four
        .globl five
five:   li   a0, 0x35
        ret
        .size five
        .globl six
six:    li   a0, 0x36
        ret
        .size six
        .globl seven
seven:  li   a0, 0x37
        ret
        .size seven
        .globl eight
eight:  li   a0, 0x38
        ret
        .size eight
        .globl nine
nine:   li   a0, 0x39
        ret
        .size nine
