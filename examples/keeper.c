/* Keeps a log of runs in a file, and goes on where it stopped after power, or a kill, went in at any byte.
 *
 *   keeper LOG TIMES      for example: keeper runs.log 3
 *
 * First what is left of the log is read, and the file is cut to its whole records: so no torn tail is ever overwritten in place. Then the empty kernel is run
 * TIMES times, the mask telling the runs apart, and each run's record is written behind the others, a byte at a time, which is the worst that can happen to it.
 * A record that is whole in the file is told on the standard output by its run's number. */
#define _DEFAULT_SOURCE
#include "spokeshaver.h"

#include <fcntl.h>
#include <stdio.h>
#include <stdlib.h>
#include <unistd.h>

enum { ROOM = 1 << 20 };

static uint8_t log_bytes[ROOM], dictionary[SPOKESHAVER_DICTIONARY_BYTES], registers[SPOKESHAVER_REGISTER_BYTES], state[SPOKESHAVER_STATE_BYTES];

/* The answer's count, if its number is the one that is wanted; else the program ends. */
static uint32_t wanted(unsigned number, uint64_t answer, const char *what) {
    if (SPOKESHAVER_NUMBER(answer) != number) {
        fprintf(stderr, "keeper: %s: %u\n", what, SPOKESHAVER_NUMBER(answer));
        exit(1);
    }
    return SPOKESHAVER_COUNT(answer);
}

static void need(int holds, const char *what) {
    if (!holds) {
        perror(what);
        exit(2);
    }
}

/* The file's bytes, in the log's buffer: how many there are. */
static size_t load(int file) {
    size_t length = 0;
    for (;;) {
        ssize_t more = read(file, log_bytes + length, ROOM - length);
        need(more >= 0, "read");
        if (more == 0) return length;
        length += (size_t)more;
    }
}

/* One run of the empty kernel with that mask, and its record behind the log's first `count` bytes: the new count. */
static uint32_t logged(uint32_t count, uint16_t mask) {
    wanted(SPOKESHAVER_ACCEPTED, spokeshaver_start(mask, 0, 0, state, sizeof state), "start");
    uint64_t answer = spokeshaver_run(dictionary, sizeof dictionary, NULL, 0, 1, registers, sizeof registers, state, sizeof state);
    wanted(SPOKESHAVER_ENDED, answer, "run");
    return wanted(SPOKESHAVER_ACCEPTED, spokeshaver_log_run(log_bytes, ROOM, count, answer, state, sizeof state), "log_run");
}

int main(int words, char **word) {
    need(words == 3, "usage: keeper LOG TIMES");
    int file = open(word[1], O_RDWR | O_CREAT, 0644);
    need(file >= 0, word[1]);
    size_t left = load(file);
    uint32_t count = wanted(SPOKESHAVER_ACCEPTED, spokeshaver_log_read(log_bytes, ROOM, left), "log_read");
    uint32_t run = wanted(SPOKESHAVER_ACCEPTED, spokeshaver_log_runs(log_bytes, ROOM, left), "log_runs");
    need(ftruncate(file, count) == 0 && lseek(file, count, SEEK_SET) == (off_t)count, "cut");

    for (unsigned long times = strtoul(word[2], NULL, 10); times > 0; times--, run++) {
        uint32_t end = logged(count, (uint16_t)((1u << run % 17) - 1));
        for (; count < end; count++) need(write(file, log_bytes + count, 1) == 1, "write");
        printf("%lu\n", (unsigned long)run);
        fflush(stdout);
    }
    return 0;
}
