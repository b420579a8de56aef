# Hart 0 clones its generation, moves to the clone and deletes the old one, twice; each answer is put into a list. Hart 1
# moves to generation 1 in between.
        .text
        .globl _start
_start: la   s0, list
        bne  a0, zero, other
        li   a7, 8             # clone: the number of the new generation
        ecall
        sd   a0, 0(s0)
        li   a7, 5             # migrate to the generation in a0
        ecall
        li   a0, 0             # delete generation 0, in which hart 1 is
        li   a7, 7
        ecall
        sd   a0, 8(s0)
        li   a0, 0             # and again, when it has left
        ecall
        sd   a0, 16(s0)
        li   a0, 0             # migrate to it, which is dead
        li   a7, 5
        ecall
        sd   a0, 24(s0)
        li   a7, 4             # exit with the number of the own generation
        ecall
        li   a7, 0
        ecall
other:  li   a0, 1             # migrate to generation 1
        li   a7, 5
        ecall
        li   a7, 0
        ecall
        .data
list:   .zero 32
