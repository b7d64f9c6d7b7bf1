/* Prints what spokeshaver_floats_exact tells in each floating-point mode: as the program finds it, with one change at a time, and set back. The modes are bits of MXCSR, the
 * x86-64 processor's control register, as the archive is for that processor; fesetround sets those of rounding, and nothing portable sets the other two. */
#include "spokeshaver.h"

#include <stdio.h>
#include <xmmintrin.h>

enum { OPERANDS_TO_ZERO = 0x0040, DOWN = 0x2000, UP = 0x4000, TOWARD_ZERO = DOWN | UP, RESULTS_TO_ZERO = 0x8000 };

/* What is told with these bits set as well. */
static void tell(const char *mode, unsigned bits) {
    unsigned found = _mm_getcsr();
    _mm_setcsr(found | bits);
    int exact = spokeshaver_floats_exact();
    _mm_setcsr(found);
    printf("%s: %d\n", mode, exact);
}

int main(void) {
    tell("as found", 0);
    tell("rounding up", UP);
    tell("rounding down", DOWN);
    tell("rounding toward zero", TOWARD_ZERO);
    tell("subnormal results to zero", RESULTS_TO_ZERO);
    tell("subnormal operands to zero", OPERANDS_TO_ZERO);
    tell("both to zero", RESULTS_TO_ZERO | OPERANDS_TO_ZERO);
    tell("set back", 0);
    return 0;
}
