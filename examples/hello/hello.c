/* Puts a greeting, byte by byte, and exits with the number of its bytes. */

/* A call of the kernel: its number is in a7, its argument and its answer in a0. */
static long call(long number, long argument)
{
    register long a0 __asm__("a0") = argument;
    register long a7 __asm__("a7") = number;
    __asm__ volatile("ecall" : "+r"(a0) : "r"(a7) : "memory");
    return a0;
}

static const char greeting[] = "hello, world\n";

static long greetings; /* in .bss: how many were put */

void _start(void)
{
    long n = 0;
    for (; greeting[n] != 0; n++)
        call(1, greeting[n]);
    greetings++;
    call(0, n);
}
