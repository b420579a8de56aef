# A program that stops at once; the kernel's own actor clones its generation.
.text
_start:
    ebreak
