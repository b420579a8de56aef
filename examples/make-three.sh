#!/bin/sh
# Writes the example of three instructions into a folder: prog.elf, an ELF file of one page of text that
# puts 0 into a7 and 7 into a0 and calls the kernel, which is an exit with 7; and steps.txt, which lets
# hart 0 make three units. Each byte is written here, so that no assembler is needed.
set -eu
cd "$1"
{
    printf '\177ELF\002\001\001\000\000\000\000\000\000\000\000\000' # e_ident: 64 bits, lowest byte first
    printf '\002\000\363\000\001\000\000\000'                         # e_type EXEC, e_machine RISC-V, e_version
    printf '\000\000\001\000\000\000\000\000'                         # e_entry 0x10000
    printf '\100\000\000\000\000\000\000\000'                         # e_phoff 64
    printf '\000\000\000\000\000\000\000\000'                         # e_shoff 0
    printf '\000\000\000\000\100\000\070\000\001\000'                 # e_flags, e_ehsize 64, e_phentsize 56, e_phnum 1
    printf '\000\000\000\000\000\000'                                 # e_shentsize, e_shnum, e_shstrndx
    printf '\001\000\000\000\005\000\000\000'                         # p_type LOAD, p_flags R and X
    printf '\000\020\000\000\000\000\000\000'                         # p_offset 4096
    printf '\000\000\001\000\000\000\000\000'                         # p_vaddr 0x10000
    printf '\000\000\001\000\000\000\000\000'                         # p_paddr
    printf '\014\000\000\000\000\000\000\000'                         # p_filesz 12
    printf '\014\000\000\000\000\000\000\000'                         # p_memsz 12
    printf '\000\020\000\000\000\000\000\000'                         # p_align 4096
    head -c 3976 /dev/zero
    printf '\223\010\000\000'                                         # 00000893: addi a7, zero, 0
    printf '\023\005\160\000'                                         # 00700513: addi a0, zero, 7
    printf '\163\000\000\000'                                         # 00000073: ecall
} >prog.elf
printf 'step h0 3\n' >steps.txt
