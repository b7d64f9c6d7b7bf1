/* Measures how the time of check, pack, run, pair, list and read grows with a kernel's instructions, and how deep the stack of each call goes on the longest kernel
 * (docs/PERFORMANCE.md). Times are medians of RUNS calls. The exit status is 1 if a call answers otherwise than it must. */
#define _GNU_SOURCE
#include "spokeshaver.h"

#include <pthread.h>
#include <stdio.h>
#include <stdlib.h>
#include <string.h>
#include <sys/mman.h>
#include <time.h>

enum { RUNS = 51, STACK = 1 << 20, SMALL_STACK = 256 << 10, PAINT = 0xA5 };

static uint8_t dictionary[SPOKESHAVER_DICTIONARY_BYTES];
static uint8_t kernel[SPOKESHAVER_KERNEL_MOST];
static uint8_t out[SPOKESHAVER_KERNEL_MOST];
static uint8_t packed[SPOKESHAVER_KERNEL_MOST];
static uint8_t registers[SPOKESHAVER_REGISTER_BYTES];
static uint8_t state[SPOKESHAVER_STATE_BYTES];
static uint8_t text[SPOKESHAVER_LINES_MOST * SPOKESHAVER_INSTRUCTIONS_MOST];
static uint8_t listed[sizeof text];
static size_t kernel_len, packed_len, listed_len;

static void put(uint8_t *to, uint32_t number) {
    for (int i = 0; i < 4; i++) to[i] = (uint8_t)(number >> 8 * i);
}

static void put_word(size_t at, uint32_t a, uint32_t b, uint32_t c, uint32_t d) {
    uint8_t *to = kernel + SPOKESHAVER_LONG_WORD_BYTES * at;
    put(to, a), put(to + 4, b), put(to + 8, c), put(to + 12, d);
}

/* An if that names the end, adds that have a short word, and a while that names the if: so many instructions, and jumps as far as there can be. */
static void make_kernel(size_t instructions) {
    put(dictionary + 4 * 1, 0x6000), put(dictionary + 4 * (32 + 2), 0x94A5), put(dictionary + 4 * (96 + 3), 0x468);
    kernel_len = SPOKESHAVER_LONG_WORD_BYTES * instructions;
    uint32_t ahead = (uint32_t)(2 * instructions), back = 0u - 2 * (uint32_t)(instructions - 1);
    put_word(0, 0x00800022, ahead << 16, 0, 0);
    for (size_t i = 1; i + 1 < instructions; i++) put_word(i, 0x00600040, 0x208014A5, 0x008D0040, 0x008D0060);
    put_word(instructions - 1, 0x00800027, back << 16, 0, 0);
}

/* The calls, each on the kernel as it stands. */
static uint64_t nothing(void) { return 0; }
static uint64_t check(void) { return spokeshaver_check(dictionary, sizeof dictionary, kernel, kernel_len); }
static uint64_t decode(void) { return spokeshaver_decode(dictionary, sizeof dictionary, kernel, kernel_len, 2); }
static uint64_t pack(void) { return spokeshaver_pack(dictionary, sizeof dictionary, kernel, kernel_len, out, sizeof out); }
static uint64_t unpack(void) { return spokeshaver_unpack(dictionary, sizeof dictionary, packed, packed_len, out, sizeof out); }
static uint64_t pair(void) { return spokeshaver_pair(dictionary, sizeof dictionary, kernel, kernel_len, packed, packed_len); }
static uint64_t shorten(void) { return spokeshaver_shorten(dictionary, sizeof dictionary, kernel + 16, 16, out, sizeof out); }
static uint64_t expand(void) { return spokeshaver_expand(dictionary, sizeof dictionary, packed + 16, 8, out, sizeof out); }
static uint64_t start(void) { return spokeshaver_start(0xFFFF, 0, 0, state, sizeof state); }
static uint64_t step(void) {
    return spokeshaver_step(dictionary, sizeof dictionary, kernel, kernel_len, registers, sizeof registers, state, sizeof state);
}
/* The packed kernel's listing, which has the most short words. */
static uint64_t list(void) { return spokeshaver_list(dictionary, sizeof dictionary, packed, packed_len, text, sizeof text); }
static uint64_t read_back(void) { return spokeshaver_read(dictionary, sizeof dictionary, listed, listed_len, out, sizeof out); }
/* As many steps as there are instructions: each is made once, and the place is the start's again. */
static uint64_t run(void) {
    return spokeshaver_run(dictionary, sizeof dictionary, kernel, kernel_len, kernel_len / SPOKESHAVER_LONG_WORD_BYTES, registers, sizeof registers, state,
                           sizeof state);
}

/* A call, its name, and the number that it must answer. */
struct call {
    const char *name;
    uint64_t (*make)(void);
    unsigned number;
};
static const struct call timed[] = {
    {"check", check, SPOKESHAVER_ACCEPTED}, {"pack", pack, SPOKESHAVER_ACCEPTED}, {"run", run, SPOKESHAVER_SPENT}, {"pair", pair, SPOKESHAVER_ACCEPTED},
    {"list", list, SPOKESHAVER_ACCEPTED}, {"read", read_back, SPOKESHAVER_ACCEPTED}};
static const struct call all[] = {
    {"check", check, SPOKESHAVER_ACCEPTED},     {"decode", decode, SPOKESHAVER_ACCEPTED}, {"pack", pack, SPOKESHAVER_ACCEPTED},
    {"unpack", unpack, SPOKESHAVER_ACCEPTED},   {"shorten", shorten, SPOKESHAVER_ACCEPTED}, {"expand", expand, SPOKESHAVER_ACCEPTED},
    {"start", start, SPOKESHAVER_ACCEPTED},     {"step", step, SPOKESHAVER_ACCEPTED},     {"run", run, SPOKESHAVER_SPENT},
    {"pair", pair, SPOKESHAVER_ACCEPTED},       {"list", list, SPOKESHAVER_ACCEPTED},     {"read", read_back, SPOKESHAVER_ACCEPTED},
};

static void must(const struct call *call, uint64_t answer) {
    if (SPOKESHAVER_NUMBER(answer) == call->number) return;
    fprintf(stderr, "%s answers %u\n", call->name, SPOKESHAVER_NUMBER(answer));
    exit(1);
}

/* The state at the start, the kernel packed, and that listed. */
static void make_ready(size_t instructions) {
    make_kernel(instructions);
    start();
    uint64_t answer = pack();
    packed_len = SPOKESHAVER_COUNT(answer);
    memcpy(packed, out, packed_len);
    answer = list();
    listed_len = SPOKESHAVER_COUNT(answer);
    memcpy(listed, text, listed_len);
}

/* ---- times */

static int by_size(const void *a, const void *b) {
    double x = *(const double *)a, y = *(const double *)b;
    return (x > y) - (x < y);
}

/* The median time of a call, in microseconds. */
static double median(const struct call *call) {
    double times[RUNS];
    for (int i = 0; i < RUNS; i++) {
        struct timespec from, to;
        start();
        clock_gettime(CLOCK_MONOTONIC, &from);
        uint64_t answer = call->make();
        clock_gettime(CLOCK_MONOTONIC, &to);
        must(call, answer);
        times[i] = (double)(to.tv_sec - from.tv_sec) * 1e6 + (double)(to.tv_nsec - from.tv_nsec) / 1e3;
    }
    qsort(times, RUNS, sizeof *times, by_size);
    return times[RUNS / 2];
}

static void print_times(void) {
    static const size_t sizes[] = {256, 1024, SPOKESHAVER_INSTRUCTIONS_MOST};
    printf("instructions  check, us  pack, us  run, us (as many steps)  pair, us  list, us  read, us\n");
    for (size_t i = 0; i < sizeof sizes / sizeof *sizes; i++) {
        make_ready(sizes[i]);
        printf("%12zu", sizes[i]);
        for (size_t c = 0; c < sizeof timed / sizeof *timed; c++) printf("  %9.1f", median(&timed[c]));
        printf("\n");
    }
}

/* ---- stacks */

static void *make_call(void *given) {
    const struct call *call = given;
    uint64_t answer = call->make();
    must(call, answer);
    return NULL;
}

static void in_thread(const pthread_attr_t *attributes, const struct call *call) {
    pthread_t thread;
    if (pthread_create(&thread, attributes, make_call, (void *)call) != 0 || pthread_join(thread, NULL) != 0) {
        fprintf(stderr, "no thread for %s\n", call->name);
        exit(1);
    }
}

/* How many bytes of its stack a thread that makes the call writes at least once: painted memory tells. */
static size_t depth(const struct call *call) {
    uint8_t *stack = mmap(NULL, STACK, PROT_READ | PROT_WRITE, MAP_PRIVATE | MAP_ANONYMOUS, -1, 0);
    if (stack == MAP_FAILED) exit(1);
    memset(stack, PAINT, STACK);
    pthread_attr_t attributes;
    pthread_attr_init(&attributes);
    pthread_attr_setstack(&attributes, stack, STACK);
    in_thread(&attributes, call);
    size_t untouched = 0;
    while (untouched < STACK && stack[untouched] == PAINT) untouched++;
    pthread_attr_destroy(&attributes);
    munmap(stack, STACK);
    return STACK - untouched;
}

static void print_depths(void) {
    static const struct call idle = {"nothing", nothing, SPOKESHAVER_ACCEPTED};
    make_ready(SPOKESHAVER_INSTRUCTIONS_MOST);
    size_t least = depth(&idle);
    printf("stack of each call on %d instructions, in bytes\n", SPOKESHAVER_INSTRUCTIONS_MOST);
    for (size_t c = 0; c < sizeof all / sizeof *all; c++) {
        start();
        printf("%8s  %zu\n", all[c].name, depth(&all[c]) - least);
    }
}

/* Every call returns on a thread that has a small stack. */
static void try_small_stack(void) {
    pthread_attr_t attributes;
    pthread_attr_init(&attributes);
    pthread_attr_setstacksize(&attributes, SMALL_STACK);
    for (size_t c = 0; c < sizeof all / sizeof *all; c++) {
        start();
        in_thread(&attributes, &all[c]);
    }
    printf("every call returns on a stack of %d bytes\n", SMALL_STACK);
}

int main(void) {
    print_times();
    print_depths();
    try_small_stack();
    return 0;
}
