/* Makes the bench's calls for a program on the other side of a pipe, so that the archive can be compared with the reference also where the
 * comparing program cannot link it.
 *
 * A request is ten numbers of 64 bits in the machine's order, and then bytes: which call, five plain arguments, the lengths of four buffers; the
 * buffers. The buffers are the dictionary, the kernel, word or text, the output, the registers, the sent kernel or the log, and the state; one that the call does not take has length 0.
 * A reply is two numbers and then bytes: the answer; 0, or what the call touched though it must not; the last two buffers as the call left them.
 *
 * Each buffer ends where a page begins that may be neither read nor written, so that one byte too far ends the program. What lies before it, and what
 * is lent for reading only, is compared after the call. */
#define _DEFAULT_SOURCE
#include "spokeshaver.h"

#include <stdio.h>
#include <string.h>
#include <sys/mman.h>
#include <unistd.h>

enum { DICTIONARY, KERNEL, OUT, STATE, BUFFERS };
enum { CALL, FIRST, SECOND, THIRD, FOURTH, FIFTH, LENGTHS, NUMBERS = LENGTHS + BUFFERS };
enum { ROOM = 1 << 19, MARGIN = 64, MARK = 0xA5 };

/* Where each buffer's room ends, and what was lent in it, the margin before it included. */
static uint8_t *end[BUFFERS];
static uint8_t before[BUFFERS][ROOM];

static int make_room(void) {
    size_t page = (size_t)sysconf(_SC_PAGESIZE);
    for (int i = 0; i < BUFFERS; i++) {
        uint8_t *room = mmap(NULL, ROOM + page, PROT_READ | PROT_WRITE, MAP_PRIVATE | MAP_ANONYMOUS, -1, 0);
        if (room == MAP_FAILED || mprotect(room + ROOM, page, PROT_NONE) != 0) return 0;
        end[i] = room + ROOM;
    }
    return 1;
}

/* Reads one buffer to the end of its room, and keeps what is lent. */
static int take(int i, uint64_t length) {
    if (length > ROOM - MARGIN) return 0;
    uint8_t *lent = end[i] - length;
    memset(lent - MARGIN, MARK, MARGIN);
    if (fread(lent, 1, length, stdin) != length) return 0;
    memcpy(before[i], lent - MARGIN, length + MARGIN);
    return 1;
}

/* What a call must leave as it was: the margins, and all of the dictionary and the kernel. */
static uint64_t touched(const uint64_t *length) {
    for (int i = 0; i < BUFFERS; i++) {
        size_t kept = i == DICTIONARY || i == KERNEL ? MARGIN + length[i] : MARGIN;
        if (memcmp(before[i], end[i] - length[i] - MARGIN, kept) != 0) return (uint64_t)i + 1;
    }
    return 0;
}

/* A buffer as it is lent: without bytes it is NULL. */
static uint8_t *lent(int i, uint64_t length) { return length == 0 ? NULL : end[i] - length; }

static uint64_t call(const uint64_t *number) {
    size_t d = number[LENGTHS + DICTIONARY], k = number[LENGTHS + KERNEL], o = number[LENGTHS + OUT], s = number[LENGTHS + STATE];
    const uint8_t *dictionary = lent(DICTIONARY, d), *kernel = lent(KERNEL, k);
    uint8_t *out = lent(OUT, o), *state = lent(STATE, s);
    switch (number[CALL]) {
    case 0: return spokeshaver_check(dictionary, d, kernel, k);
    case 1: return spokeshaver_pack(dictionary, d, kernel, k, out, o);
    case 2: return spokeshaver_unpack(dictionary, d, kernel, k, out, o);
    case 3: return spokeshaver_shorten(dictionary, d, kernel, k, out, o);
    case 4: return spokeshaver_expand(dictionary, d, kernel, k, out, o);
    case 5: return spokeshaver_decode(dictionary, d, kernel, k, number[FIRST]);
    case 6: return spokeshaver_start((uint16_t)number[FIRST], (uint16_t)number[SECOND], (uint16_t)number[THIRD], state, s);
    case 7: return spokeshaver_step(dictionary, d, kernel, k, out, o, state, s);
    case 8: return spokeshaver_run(dictionary, d, kernel, k, number[FIRST], out, o, state, s);
    case 9: return spokeshaver_pair(dictionary, d, kernel, k, out, o);
    case 10: return spokeshaver_log_append(out, o, number[FIRST], number[SECOND], number[THIRD], number[FOURTH], number[FIFTH]);
    case 11: return spokeshaver_log_read(out, o, number[FIRST]);
    case 12: return spokeshaver_log_runs(out, o, number[FIRST]);
    case 13: return spokeshaver_log_run(out, o, number[FIRST], number[SECOND], state, s);
    case 14: return spokeshaver_forward(dictionary, d, kernel, k);
    case 15: return spokeshaver_list(dictionary, d, kernel, k, out, o);
    case 16: return spokeshaver_read(dictionary, d, kernel, k, out, o);
    case 17: return spokeshaver_place(number[FIRST], kernel, k, (uint32_t)number[SECOND], (uint32_t)number[THIRD], out, o);
    case 18: return spokeshaver_place_kernel(out, o);
    case 19: return spokeshaver_place_load(kernel, k, out, o);
    default: return UINT64_MAX;
    }
}

int main(void) {
    uint64_t number[NUMBERS], reply[2];
    static char input[1 << 18], output[1 << 18];
    setvbuf(stdin, input, _IOFBF, sizeof input);
    setvbuf(stdout, output, _IOFBF, sizeof output);
    if (!make_room()) return 1;
    while (fread(number, sizeof number, 1, stdin) == 1) {
        const uint64_t *length = number + LENGTHS;
        for (int i = 0; i < BUFFERS; i++)
            if (!take(i, length[i])) return 1;
        reply[0] = call(number);
        reply[1] = touched(length);
        fwrite(reply, sizeof reply, 1, stdout);
        fwrite(end[OUT] - length[OUT], 1, length[OUT], stdout);
        fwrite(end[STATE] - length[STATE], 1, length[STATE], stdout);
        if (fflush(stdout) != 0) return 1;
    }
    return 0;
}
