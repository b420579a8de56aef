/* Calls of the kernel: their numbers, and how one is made. */

enum { EXIT = 0, PUT = 1, QUIESCE = 6 };

/* The number is in a7, the argument and the answer are in a0; every other register stays. */
static inline long call(long number, long argument)
{
    register long a0 __asm__("a0") = argument;
    register long a7 __asm__("a7") = number;
    __asm__ volatile("ecall" : "+r"(a0) : "r"(a7) : "memory");
    return a0;
}

/* The hart stops. */
static inline __attribute__((noreturn)) void leave(long code)
{
    call(EXIT, code);
    __builtin_unreachable();
}
