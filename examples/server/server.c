/* A server: two harts answer requests from one list, until it is at its end. A request is a number of points, and its
   answer a byte, the grade. */

#include "call.h"

/* In a source file of its own: here the compiler sees no body of it that it could use instead of a call. */
char grade(long points);

static const unsigned char requests[] = {95, 80, 90, 80, 71};

enum { REQUESTS = sizeof requests }; /* a byte each */

static long next; /* the first request that no hart has taken */

/* Each hart begins here, on a stack of its own. */
__attribute__((noreturn)) void _start(void)
{
    long answered = 0;
    for (;;) {
        long request = __atomic_fetch_add(&next, 1, __ATOMIC_RELAXED);
        if (request >= REQUESTS)
            leave(answered);
        call(PUT, grade(requests[request]));
        answered++;
        /* Between two requests: no answer is in hand, and no function but this one is on the stack. */
        call(QUIESCE, 0);
    }
}
