/* Prints what spokeshaver_floats_exact tells in the floating-point mode that the program finds. */
#include "spokeshaver.h"

#include <stdio.h>

int main(void) {
    printf("%d\n", spokeshaver_floats_exact());
    return 0;
}
