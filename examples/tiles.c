/* Places tiles by floats: takes the bench's own kernel for it, lets the bench judge and pack it, runs it once for five tiles, and holds each answer to the plain formula's,
 * bit by bit. Then it answers two orders for a sixth tile that need no kernel.
 *
 *   tiles DICTIONARY      for example: tiles sandy-bridge.dictionary */
#include "spokeshaver.h"

#include <stdio.h>
#include <stdlib.h>
#include <string.h>

enum { TILES = 5, REGISTER = 32, FLOAT = 4 };

/* Where the kernel finds x and y, and where it leaves them. */
enum { X = 2 * REGISTER, Y = 4 * REGISTER, NEW_X = 8 * REGISTER, NEW_Y = 10 * REGISTER };

struct point {
    float x, y;
};

/* Half the size, turned and slanted a little, and moved by 100 and 20: x becomes 0.5 x - 0.25 y + 100, and y becomes 0.25 x + 0.5 y + 20. */
static const float placement[] = {0.5f, -0.25f, 100, 0.25f, 0.5f, 20};

static const struct point tiles[TILES] = {{0, 0}, {64, 0}, {0, 48}, {64, 48}, {64.5f, 48}}, sixth = {10, 30};

/* One byte more than is allowed, so that the bench sees a file that is too long, and refuses it. */
static uint8_t dictionary[SPOKESHAVER_DICTIONARY_BYTES + 1];
static uint8_t kernel[SPOKESHAVER_PLACE_KERNEL_BYTES], packed[SPOKESHAVER_PLACE_KERNEL_BYTES], record[SPOKESHAVER_RECORD_BYTES];
static uint8_t registers[SPOKESHAVER_REGISTER_BYTES], state[SPOKESHAVER_STATE_BYTES];

static size_t load(const char *name, uint8_t *to, size_t most) {
    FILE *file = fopen(name, "rb");
    if (file == NULL) {
        fprintf(stderr, "tiles: %s cannot be read\n", name);
        exit(2);
    }
    size_t length = fread(to, 1, most, file);
    fclose(file);
    return length;
}

/* The answer's count, if its number is the one that is wanted; else the program ends. */
static uint32_t wanted(unsigned number, uint64_t answer, const char *what) {
    if (SPOKESHAVER_NUMBER(answer) != number) {
        printf("%s: %u at byte %lu\n", what, SPOKESHAVER_NUMBER(answer), (unsigned long)SPOKESHAVER_OFFSET(answer));
        exit(1);
    }
    return SPOKESHAVER_COUNT(answer);
}

/* A float's 32 bits, and the float of such bits. */
static uint32_t pattern_of(float value) {
    uint32_t pattern;
    memcpy(&pattern, &value, sizeof pattern);
    return pattern;
}

static float float_of(uint32_t pattern) {
    float value;
    memcpy(&value, &pattern, sizeof value);
    return value;
}

/* A float in four bytes, the lowest first. */
static void put(uint8_t *to, float value) {
    for (unsigned n = 0; n < FLOAT; n++) to[n] = (uint8_t)(pattern_of(value) >> 8 * n);
}

static float get(const uint8_t *from) {
    uint32_t pattern = 0;
    for (unsigned n = 0; n < FLOAT; n++) pattern |= (uint32_t)from[n] << 8 * n;
    return float_of(pattern);
}

/* The bench's answer to an order, without a kernel. */
static void answer(uint64_t order, struct point at, uint8_t *out) {
    wanted(SPOKESHAVER_ACCEPTED, spokeshaver_place(order, record, sizeof record, pattern_of(at.x), pattern_of(at.y), out, SPOKESHAVER_POINT_BYTES), "place");
}

/* Takes the kernel, packs it, and runs it for all tiles at once. */
static void run_kernel(size_t d) {
    size_t k = wanted(SPOKESHAVER_ACCEPTED, spokeshaver_place_kernel(kernel, sizeof kernel), "the kernel");
    uint32_t instructions = wanted(SPOKESHAVER_ACCEPTED, spokeshaver_check(dictionary, d, kernel, k), "check");
    size_t p = wanted(SPOKESHAVER_ACCEPTED, spokeshaver_pack(dictionary, d, kernel, k, packed, sizeof packed), "pack");
    printf("the kernel: %lu instructions, %lu bytes, packed %lu\n", (unsigned long)instructions, (unsigned long)k, (unsigned long)p);

    wanted(SPOKESHAVER_ACCEPTED, spokeshaver_place_load(record, sizeof record, registers, sizeof registers), "the record");
    for (unsigned n = 0; n < TILES; n++) {
        put(registers + X + FLOAT * n, tiles[n].x);
        put(registers + Y + FLOAT * n, tiles[n].y);
    }
    wanted(SPOKESHAVER_ACCEPTED, spokeshaver_start((1 << TILES) - 1, 0, 0, state, sizeof state), "start");
    uint64_t ran = spokeshaver_run(dictionary, d, packed, p, SPOKESHAVER_BUDGET_MOST, registers, sizeof registers, state, sizeof state);
    printf("%d tiles placed in %lu steps\n", TILES, (unsigned long)wanted(SPOKESHAVER_ENDED, ran, "run"));
}

/* Where the kernel put a tile. True if the plain formula has the very same bits. */
static int tell_tile(unsigned n) {
    const uint8_t *x = registers + NEW_X + FLOAT * n, *y = registers + NEW_Y + FLOAT * n;
    uint8_t plain[SPOKESHAVER_POINT_BYTES];
    answer(SPOKESHAVER_PLACE, tiles[n], plain);
    int same = memcmp(plain, x, FLOAT) == 0 && memcmp(plain + FLOAT, y, FLOAT) == 0;
    printf("tile %u goes from (%g, %g) to (%g, %g), ", n + 1, tiles[n].x, tiles[n].y, get(x), get(y));
    if (same)
        printf("by the formula too\n");
    else
        printf("but by the formula to (%g, %g)\n", get(plain), get(plain + FLOAT));
    return same;
}

static void tell_sixth(uint64_t order, const char *what) {
    uint8_t out[SPOKESHAVER_POINT_BYTES];
    answer(order, sixth, out);
    printf("tile 6 at (%g, %g), %s: (%g, %g)\n", sixth.x, sixth.y, what, get(out), get(out + FLOAT));
}

int main(int count, char **words) {
    if (count != 2) {
        fprintf(stderr, "usage: tiles DICTIONARY\n");
        return 2;
    }
    if (!spokeshaver_floats_exact()) {
        printf("the processor rounds floats in another way than the bench needs; was this program linked with -ffast-math?\n");
        return 1;
    }
    for (unsigned n = 0; n < sizeof placement / sizeof *placement; n++) put(record + FLOAT * n, placement[n]);
    run_kernel(load(words[1], dictionary, sizeof dictionary));
    int same = 1;
    for (unsigned n = 0; n < TILES; n++) same &= tell_tile(n);
    tell_sixth(SPOKESHAVER_KEEP, "kept where it is");
    tell_sixth(SPOKESHAVER_SHIFT, "shifted by 100 and 20");
    return same ? 0 : 1;
}
