/* Walks through a kernel step by step, and prints at each step which channels it works on, and who is awake and who waits where after it.
 *
 *   walk FILE MASK FLAG REGISTER:TYPE..      for example: walk sides.in ffff 0fff 4:ub
 *
 * The file has 512 dictionary bytes and then a kernel, as for ./check; the mask of channels and f0.0 are in hex. r2 holds the channels' numbers, as words, and every
 * other register 0. At the end the registers are printed, the lowest element first; the type is ub, uw, ud or f. */
#include "spokeshaver.h"

#include <stdio.h>
#include <stdlib.h>
#include <string.h>

enum { CHANNELS = 16, REGISTER = 32, NUMBERS = 2, STEPS_MOST = 100, PLACE = 4, AWAKE = 6, WAITING = 8, WAITS_AT = 10 };

/* One byte more than is allowed, so that the bench sees a file that is too long, and refuses it. */
static uint8_t input[SPOKESHAVER_DICTIONARY_BYTES + SPOKESHAVER_KERNEL_MOST + 1];
static uint8_t registers[SPOKESHAVER_REGISTER_BYTES], state[SPOKESHAVER_STATE_BYTES];

static size_t load(const char *name) {
    FILE *file = fopen(name, "rb");
    if (file == NULL) {
        fprintf(stderr, "walk: %s cannot be read\n", name);
        exit(2);
    }
    size_t length = fread(input, 1, sizeof input, file);
    fclose(file);
    return length;
}

/* The state's number of 16 bits at a byte. */
static unsigned half(unsigned at) {
    return state[at] | (unsigned)state[at + 1] << 8;
}

/* The channels that wait at a place. */
static unsigned waiting_at(unsigned place) {
    unsigned mask = 0;
    for (unsigned n = 0; n < CHANNELS; n++)
        if (half(WAITING) >> n & 1 && half(WAITS_AT + 2 * n) == place) mask |= 1u << n;
    return mask;
}

/* Who waits where, in the order of each place's first channel. */
static void print_waiting(void) {
    unsigned printed = 0;
    for (unsigned n = 0; n < CHANNELS; n++) {
        if (!(half(WAITING) >> n & 1) || printed >> n & 1) continue;
        unsigned place = half(WAITS_AT + 2 * n);
        printf("  %04x at %u", waiting_at(place), place);
        printed |= waiting_at(place);
    }
}

/* An element of so many bytes, the lowest first. */
static uint32_t element(unsigned at, unsigned size) {
    uint32_t value = 0;
    for (unsigned n = 0; n < size; n++) value |= (uint32_t)registers[at + n] << 8 * n;
    return value;
}

/* A float by its 32 bits, with as many digits as tell it from every other. */
static void print_float(uint32_t pattern) {
    float value;
    memcpy(&value, &pattern, sizeof value);
    printf(" %.9g", value);
}

static void print_register(const char *asked) {
    char *type;
    unsigned long number = strtoul(asked, &type, 10);
    int is_float = strcmp(type, ":f") == 0;
    unsigned size = is_float || strcmp(type, ":ud") == 0 ? 4 : strcmp(type, ":uw") == 0 ? 2 : 1;
    if (number >= SPOKESHAVER_REGISTER_BYTES / REGISTER) return;
    printf("r%s:", asked);
    for (unsigned at = 0; at < REGISTER; at += size) {
        uint32_t value = element(number * REGISTER + at, size);
        if (is_float)
            print_float(value);
        else
            printf(" %lu", (unsigned long)value);
    }
    printf("\n");
}

/* Makes steps up to the end, a refusal or the most that are printed: the last answer. */
static uint64_t walk(size_t length) {
    size_t d = length < SPOKESHAVER_DICTIONARY_BYTES ? length : SPOKESHAVER_DICTIONARY_BYTES;
    uint64_t answer = 0;
    printf("step place  works on  awake after  waiting after\n");
    for (unsigned step = 1; step <= STEPS_MOST; step++) {
        unsigned place = half(PLACE), works = half(AWAKE) | waiting_at(place);
        answer = spokeshaver_step(input, d, input + d, length - d, registers, sizeof registers, state, sizeof state);
        if (SPOKESHAVER_NUMBER(answer) != SPOKESHAVER_ACCEPTED) return answer;
        printf("%4u %5u      %04x         %04x", step, place, works, half(AWAKE));
        print_waiting();
        printf("\n");
    }
    return answer;
}

int main(int count, char **words) {
    if (count < 4) {
        fprintf(stderr, "usage: walk FILE MASK FLAG REGISTER:TYPE..\n");
        return 2;
    }
    size_t length = load(words[1]);
    for (unsigned n = 0; n < CHANNELS; n++) registers[REGISTER * NUMBERS + 2 * n] = (uint8_t)n;
    spokeshaver_start((uint16_t)strtoul(words[2], NULL, 16), (uint16_t)strtoul(words[3], NULL, 16), 0, state, sizeof state);

    uint64_t answer = walk(length);
    unsigned number = SPOKESHAVER_NUMBER(answer);
    if (number == SPOKESHAVER_ACCEPTED) printf("not ended after %d steps\n", STEPS_MOST);
    else if (number == SPOKESHAVER_ENDED) printf("%u: %s\n", number, spokeshaver_message(number));
    else printf("%u: %s: byte %lu\n", number, spokeshaver_message(number), (unsigned long)SPOKESHAVER_OFFSET(answer));
    for (int i = 4; i < count; i++) print_register(words[i]);
    return number == SPOKESHAVER_ENDED ? 0 : 1;
}
