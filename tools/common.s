# A source in the common part of this assembler's language and of the GNU assembler's: each operation (the atomic ones in
# one width and order each), each short form, and most directives that both have. tools/asm-against-others.sh compares
# what both make of it.
        .text
        .globl _start
_start: nop
        mv t0, a1
        li a0, -2048
        li a1, 2047
        li a2, 2048
        li a3, 0x12345678
        li a4, -123456
        la a5, words
        call near
        call far
        j after
near:   ret
after:  lui x31, 0xfffff
        auipc x1, 0
        jal x0, after
        jal x5, near
        jalr x1, -4(x6)
        jalr x0, 2047(x31)
        beq x1, x2, near
        bne x3, x4, after
        blt x5, x6, here
        bge x7, x8, here
        bltu x9, x10, near
here:   bgeu x11, x12, far
        lb x1, -2048(x2)
        lh x3, -1(x4)
        lw x5, 0(x6)
        ld x7, 8(x8)
        lbu x9, 2047(x10)
        lhu x11, 2(x12)
        lwu x13, 4(x14)
        sb x15, -2048(x16)
        sh x17, -2(x18)
        sw x19, 0(x20)
        sd x21, 2047(x22)
        addi x1, x2, -2048
        slti x3, x4, 2047
        sltiu x5, x6, -1
        xori x7, x8, 1
        ori x9, x10, 0x7ff
        andi x11, x12, -3
        addiw x13, x14, 5
        slli x15, x16, 63
        srli x17, x18, 1
        srai x19, x20, 32
        slliw x21, x22, 31
        srliw x23, x24, 1
        sraiw x25, x26, 16
        add x1, x2, x3
        sub x4, x5, x6
        sll x7, x8, x9
        slt x10, x11, x12
        sltu x13, x14, x15
        xor x16, x17, x18
        srl x19, x20, x21
        sra x22, x23, x24
        or x25, x26, x27
        and x28, x29, x30
        addw x31, x1, x2
        subw x3, x4, x5
        sllw x6, x7, x8
        srlw x9, x10, x11
        sraw x12, x13, x14
        mul x1, x2, x3
        mulh x4, x5, x6
        mulhsu x7, x8, x9
        mulhu x10, x11, x12
        div x13, x14, x15
        divu x16, x17, x18
        rem x19, x20, x21
        remu x22, x23, x24
        mulw x25, x26, x27
        divw x28, x29, x30
        divuw x31, x1, x2
        remw x3, x4, x5
        remuw x6, x7, x8
        lr.w a0, (a1)
        lr.d.aq a2, (a3)
        sc.w.rl a4, a5, (a6)
        sc.d.aqrl a7, s0, (s1)
        amoswap.w s2, s3, (s4)
        amoadd.d s5, s6, (s7)
        amoxor.w.aq s8, s9, (s10)
        amoand.d.rl s11, t0, (t1)
        amoor.w.aqrl t2, t3, (t4)
        amomin.d t5, t6, (zero)
        amomax.w ra, sp, (gp)
        amominu.d tp, fp, (x9)
        amomaxu.w x18, x19, (x20)
        ecall
        ebreak
        fence
        fence.i
        .word 0x01020304
        .align 4
far:    sd ra, -8(sp)
        .align 4
        ret
        .rodata
text:   .ascii "letters, digits 0123456789 and #"
        .byte -128
        .byte 255
        .half 0xffff
        .word -2147483648
        .dword 0x0123456789abcdef
        .data
words:  .word text
        .word near+4
        .align 3
        .dword far-8
        .dword text
        .zero 5
last:   .byte 7
        .bss
room:   .zero 24
