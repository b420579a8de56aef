# Hart 0 adds 1 to a word by load-reserved and store-conditional, until the store succeeds; it exits with the number of
# its tries. Hart 1 stores 40 into the same word.
        .text
        .globl _start
_start: la   s0, word
        bne  a0, zero, other
        li   s1, 0             # tries
again:  addi s1, s1, 1
        lr.d t0, (s0)
        addi t0, t0, 1
        sc.d t1, t0, (s0)      # 0 in t1 where it stored, else 1
        bne  t1, zero, again
        mv   a0, s1
        j    exit
other:  li   t0, 40
        sd   t0, 0(s0)
        li   a0, 0
exit:   li   a7, 0
        ecall
        .data
word:   .dword 0
