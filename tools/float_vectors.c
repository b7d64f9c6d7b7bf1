/* Prints crates/vectors/specs/HardwareN.antt: pairs of patterns with their sum, their product and the six comparisons as the float unit of the machine at hand gives them.
 *   cc -std=c99 -O1 -ffp-contract=off tools/float_vectors.c -o target/float_vectors
 *   for n in 0 1 2 3; do target/float_vectors $n >crates/vectors/specs/Hardware$n.antt; done
 * The pairs are all pairs of edges, and then random ones from a fixed seed. A sum or product that is no number is written as 0x7FC00000, whatever bits the unit gave it. */
#include <stdint.h>
#include <stdio.h>
#include <stdlib.h>
#include <string.h>

enum { EDGES = 24, PAIRS = 1024, FILES = 4, LISTS = 4, ROWS = PAIRS / FILES / LISTS };

static const uint32_t edges[EDGES] = {
    0x00000000, 0x80000000, /* zeros */
    0x00000001, 0x80000001, /* the least subnormal numbers */
    0x007FFFFF, 0x807FFFFF, /* the greatest */
    0x00800000,             /* the least normal number */
    0x3F800000, 0xBF800000, /* 1 and -1 */
    0x3F800001,             /* the next after 1 */
    0x3F000000, 0x3FC00000, /* 0.5 and 1.5, whose products with odd subnormal numbers are ties */
    0x33800000,             /* 2^-24: with 1, and with the next after it, a sum that is a tie */
    0x4B800000, 0x4B800001, /* 2^24 and the next: with 1 a sum that is a tie */
    0x73000000,             /* 2^103: with the largest number a sum that is a tie with what is too large */
    0x7F7FFFFF, 0xFF7FFFFF, /* the largest numbers */
    0x7F800000, 0xFF800000, /* infinities */
    0x7FC00000, 0xFFC12345, /* quiet NaNs */
    0x7F800001, 0xFFA00000, /* signalling NaNs */
};

struct pair {
    uint32_t x, y;
};

/* Sixty-four random bits from a state that counts up. */
static uint64_t next(uint64_t *state) {
    uint64_t z = *state += 0x9E3779B97F4A7C15;
    z = (z ^ z >> 30) * 0xBF58476D1CE4E5B9;
    z = (z ^ z >> 27) * 0x94D049BB133111EB;
    return z ^ z >> 31;
}

/* A number from low to high. */
static int between(uint64_t *state, int low, int high) { return low + (int)(next(state) % (uint64_t)(high - low + 1)); }

/* A float with a random sign and fraction, and an exponent's field that is cut to those of numbers. */
static uint32_t with_exponent(uint64_t *state, int exponent) {
    uint32_t field = exponent < 0 ? 0 : exponent > 254 ? 254 : (uint32_t)exponent;
    uint64_t bits = next(state);
    return (uint32_t)(bits >> 63 << 31) | field << 23 | (uint32_t)(bits & 0x7FFFFF);
}

/* The same with no more than so many binary digits, the last of them 1. */
static uint32_t with_digits(uint64_t *state, int exponent, int digits) {
    uint32_t last = (uint32_t)1 << (24 - digits);
    return (with_exponent(state, exponent) & ~(last - 1)) | last;
}

/* The random pair of a number: six kinds in turn. */
static struct pair random_pair(uint64_t *state, int number) {
    int e = between(state, 0, 254);
    switch (number % 6) {
    case 0: /* near each other in size */
        return (struct pair){with_exponent(state, e), with_exponent(state, e + between(state, -2, 2))};
    case 1: /* as far apart as digits reach */
        return (struct pair){with_exponent(state, e), with_exponent(state, e + between(state, -26, 26))};
    case 2: /* subnormal, or little above */
        return (struct pair){with_exponent(state, between(state, 0, 1)), with_exponent(state, between(state, 0, 1))};
    case 3: { /* a product that is subnormal, or too large */
        int of_both = between(state, 0, 1) ? between(state, 100, 130) : between(state, 379, 383), half = between(state, 0, 50);
        return (struct pair){with_exponent(state, of_both / 2 + half), with_exponent(state, of_both - of_both / 2 - half)};
    }
    case 4: /* a sum that is mostly a tie: the second one's last digit is half of the first one's */
        e = between(state, 30, 254);
        int digits = between(state, 2, 20);
        return (struct pair){with_exponent(state, e), with_digits(state, e - 25 + digits, digits)};
    default: /* a product that is mostly a tie: odd numbers of 12 and 13 digits */
        e = between(state, 70, 180);
        return (struct pair){with_digits(state, e, 12), with_digits(state, e, 13)};
    }
}

/* All pairs, edges first. */
static void make_pairs(struct pair *pairs) {
    uint64_t state = 8;
    for (int n = 0; n < EDGES * EDGES; n++) pairs[n] = (struct pair){edges[n / EDGES], edges[n % EDGES]};
    for (int n = EDGES * EDGES; n < PAIRS; n++) pairs[n] = random_pair(&state, n);
}

static float value(uint32_t pattern) {
    float v;
    memcpy(&v, &pattern, sizeof v);
    return v;
}

static uint32_t pattern(float v) {
    uint32_t bits;
    memcpy(&bits, &v, sizeof bits);
    return v != v ? 0x7FC00000 : bits;
}

/* Bit c - 1 for condition code c: z, nz, g, ge, l, le. */
static unsigned comparisons(float x, float y) {
    return (unsigned)(x == y) | (unsigned)(x != y) << 1 | (unsigned)(x > y) << 2 | (unsigned)(x >= y) << 3 | (unsigned)(x < y) << 4 | (unsigned)(x <= y) << 5;
}

static void print_row(struct pair of, int is_first) {
    volatile float x = value(of.x), y = value(of.y);
    volatile float sum = x + y, product = x * y;
    printf("    %spair 0x%08X 0x%08X 0x%08X 0x%08X %u\n", is_first ? "" : "∷ ", (unsigned)of.x, (unsigned)of.y, (unsigned)pattern(sum), (unsigned)pattern(product), comparisons(x, y));
}

static void print_list(const struct pair *pairs, int number) {
    printf("\nlist%d : List Pair\nlist%d =\n", number, number);
    for (int n = 0; n < ROWS; n++) print_row(pairs[n], n == 0);
    printf("    ∷ []\n\nlist%d-hold : Hold list%d\nunfolding Hold list%d\nlist%d-hold = refl\n", number, number, number, number);
}

int main(int count, char **words) {
    static struct pair pairs[PAIRS];
    int file = count == 2 ? atoi(words[1]) : -1;
    if (file < 0 || file >= FILES) {
        fprintf(stderr, "usage: float_vectors N, from 0 to %d\n", FILES - 1);
        return 2;
    }
    make_pairs(pairs);
    printf("-- Pairs %d to %d of %d: what the hardware gave, printed by tools/float_vectors.c, not by hand. The first %d are all pairs of edges.\n", file * (PAIRS / FILES),
           (file + 1) * (PAIRS / FILES) - 1, PAIRS, EDGES * EDGES);
    printf("use mathlib.Core.List.{List, [], _∷_}\nuse mathlib.Core.Path.{refl}\nuse Rattle·vectors·specs.specs.Pair.{Pair, pair, Hold}\n");
    for (int n = 0; n < LISTS; n++) print_list(pairs + (file * LISTS + n) * ROWS, file * LISTS + n);
    return 0;
}
