# Two harts count in one word, three times each, by an atomic addition. The one that gets to 6 puts a !.
        .text
        .globl _start
_start: la   s0, count
        li   s1, 3             # rounds to go
        li   s2, 1
round:  amoadd.d a0, s2, (s0)  # what was there before is in a0
        addi s1, s1, -1
        bne  s1, zero, round
        li   t0, 5
        bne  a0, t0, done
        li   a0, 0x21          # a !
        li   a7, 1             # put the byte in a0
        ecall
done:   li   a7, 0             # exit with 0
        li   a0, 0
        ecall
        .data
count:  .dword 0
