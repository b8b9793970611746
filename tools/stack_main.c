/* What tools/stack links with a probe: makes each of its CALLS calls, and writes its status word and the bytes of stack that it took, a line a call. */
int printf(const char *, ...);
unsigned short stack_probe(unsigned char call, unsigned char *response, unsigned long room);

enum { DEPTH = 1 << 18, OWN = 64 };

static unsigned char response[256], paint, *top;

/* The probe calls this right before the call that is measured. The frame pointer lies 16 bytes below the frame of the probe; the frame of this function,
   which is compiled without a red zone, lies within OWN bytes below it and is not painted. */
int sched_yield(void) {
    unsigned char *here = __builtin_frame_address(0);
    top = here + 16;
    for (volatile unsigned char *at = top - DEPTH; at < here - OWN; at++) *at = paint;
    return 0;
}

static unsigned long taken(void) {
    volatile unsigned char *at = top - DEPTH;
    while (at < top && *at == paint) at++;
    return (unsigned long)(top - at);
}

/* The system gives a stack its pages as it grows. */
static void grow(void) {
    volatile unsigned char room[4 * DEPTH];
    for (unsigned long at = sizeof room; at-- > 0;) room[at] = 0;
}

int main(void) {
    grow();
    for (unsigned char call = 0; call < CALLS; call++) {
        unsigned word = 0;
        unsigned long most = 0;
        /* Twice, since a call could write the paint itself. */
        for (paint = 0x5A; paint != 0xB4; paint = (unsigned char)(paint + 0x2D)) {
            word = stack_probe(call, response, sizeof response);
            unsigned long bytes = taken();
            if (most < bytes) most = bytes;
        }
        printf("%u %lu\n", word, most);
    }
    return 0;
}
