/* A small stitcher: loads a dictionary and a kernel that places tiles, lets the bench judge and pack the kernel, loads only what passed, runs it on
 * sixteen tiles and prints the registers that are asked for.
 *
 *   stitcher DICTIONARY KERNEL REGISTER..      for example: stitcher place-tile.dictionary place-tile.kernel 16 17 */
#include "spokeshaver.h"

#include <stdio.h>
#include <stdlib.h>

enum { CHANNELS = 16, ALL_AWAKE = 0xFFFF, TILES = 2, JOB = 4, REGISTER = 32 };

/* One byte more than is allowed, so that the bench sees a file that is too long, and refuses it. */
static uint8_t dictionary[SPOKESHAVER_DICTIONARY_BYTES + 1], kernel[SPOKESHAVER_KERNEL_MOST + 1];
static uint8_t packed[SPOKESHAVER_KERNEL_MOST], registers[SPOKESHAVER_REGISTER_BYTES], state[SPOKESHAVER_STATE_BYTES];

static size_t load(const char *name, uint8_t *to, size_t most) {
    FILE *file = fopen(name, "rb");
    if (file == NULL) {
        fprintf(stderr, "stitcher: %s cannot be read\n", name);
        exit(2);
    }
    size_t length = fread(to, 1, most, file);
    fclose(file);
    return length;
}

/* The answer's count, if its number is the one that is wanted; else the program ends. */
static uint32_t wanted(unsigned number, uint64_t answer, const char *what) {
    if (SPOKESHAVER_NUMBER(answer) != number) {
        printf("%s: %u at byte %lu\n", what, SPOKESHAVER_NUMBER(answer), (unsigned long)SPOKESHAVER_OFFSET(answer));
        exit(1);
    }
    return SPOKESHAVER_COUNT(answer);
}

static void put_word(unsigned in, unsigned element, unsigned value) {
    registers[REGISTER * in + 2 * element] = (uint8_t)value;
    registers[REGISTER * in + 2 * element + 1] = (uint8_t)(value >> 8);
}

static void print_register(unsigned number) {
    printf("r%u:", number);
    for (unsigned at = REGISTER * number; at < REGISTER * (number + 1); at += 4) {
        const uint8_t *b = registers + at;
        printf(" %lu", (unsigned long)b[0] | (unsigned long)b[1] << 8 | (unsigned long)b[2] << 16 | (unsigned long)b[3] << 24);
    }
    printf("\n");
}

int main(int count, char **words) {
    if (count < 3) {
        fprintf(stderr, "usage: stitcher DICTIONARY KERNEL REGISTER..\n");
        return 2;
    }
    size_t d = load(words[1], dictionary, sizeof dictionary), k = load(words[2], kernel, sizeof kernel);

    uint32_t instructions = wanted(SPOKESHAVER_ACCEPTED, spokeshaver_check(dictionary, d, kernel, k), "check");
    size_t p = wanted(SPOKESHAVER_ACCEPTED, spokeshaver_pack(dictionary, d, kernel, k, packed, sizeof packed), "pack");
    wanted(SPOKESHAVER_ACCEPTED, spokeshaver_check(dictionary, d, packed, p), "check of the packed kernel");
    printf("%lu instructions, %lu bytes, packed %lu\n", (unsigned long)instructions, (unsigned long)k, (unsigned long)p);

    /* Tiles 0 to 15 of a picture that is three tiles wide. */
    static const unsigned job[] = {3, 64, 48, 160, 256};
    for (unsigned n = 0; n < CHANNELS; n++) put_word(TILES, n, n);
    for (unsigned n = 0; n < sizeof job / sizeof *job; n++) put_word(JOB, n, job[n]);

    wanted(SPOKESHAVER_ACCEPTED, spokeshaver_start(ALL_AWAKE, 0, 0, state, sizeof state), "start");
    uint64_t ran = spokeshaver_run(dictionary, d, packed, p, SPOKESHAVER_BUDGET_MOST, registers, sizeof registers, state, sizeof state);
    printf("%lu steps\n", (unsigned long)wanted(SPOKESHAVER_ENDED, ran, "run"));

    for (int i = 3; i < count; i++) {
        unsigned long number = strtoul(words[i], NULL, 10);
        if (number < SPOKESHAVER_REGISTER_BYTES / REGISTER) print_register((unsigned)number);
    }
    return 0;
}
