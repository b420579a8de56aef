/* The server of server.c with its quiescence point in the wrong place: there an answer is in hand. */

#include "call.h"

char grade(long points);

static const unsigned char requests[] = {95, 80, 90, 80, 71};

enum { REQUESTS = sizeof requests }; /* a byte each */

static long next;

__attribute__((noreturn)) void _start(void)
{
    long answered = 0;
    for (;;) {
        long request = __atomic_fetch_add(&next, 1, __ATOMIC_RELAXED);
        if (request >= REQUESTS)
            leave(answered);
        char answer = grade(requests[request]);
        call(QUIESCE, 0); /* wrong: the hart moves on, and its old answer with it */
        call(PUT, answer);
        answered++;
    }
}
