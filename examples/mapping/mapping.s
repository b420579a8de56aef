# Hart 0 maps a page at 0x20000, stores into it, unmaps it and maps it anew. Hart 1 loads from it three times.
        .text
        .globl _start
_start: lui  s0, 0x20          # 0x20000
        bne  a0, zero, other
        mv   a0, s0            # map: the page at a0,
        li   a1, 1             # one page,
        li   a2, 3             # to read and to write
        li   a7, 2
        ecall
        li   t0, 7
        sd   t0, 0(s0)
        mv   a0, s0            # unmap: the page at a0,
        li   a1, 1             # one page
        li   a7, 3
        ecall
        mv   a0, s0            # unmap once more: there is no page, and the answer is below 0
        ecall
        mv   s1, a0
        mv   a0, s0            # map again: zeros
        li   a1, 1
        li   a2, 3
        li   a7, 2
        ecall
        mv   a0, s1            # exit with the answer to the unmap that was refused
        li   a7, 0
        ecall
other:  ld   a0, 0(s0)
        ld   a0, 0(s0)
        ld   a0, 0(s0)
        li   a7, 0
        ecall
