/* Prints every number that has a sentence, and the version: tests/install holds them to the header's own lists. */
#include "spokeshaver.h"

#include <stdio.h>
#include <string.h>

int main(void) {
    for (unsigned number = 0; number < 1000; number++)
        if (strcmp(spokeshaver_message(number), "unknown") != 0) printf("%u\n", number);
    printf("%s %d\n", SPOKESHAVER_VERSION, SPOKESHAVER_VERSION_NUMBER);
    return 0;
}
