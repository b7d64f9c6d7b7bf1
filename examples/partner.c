/* Loads a kernel that a partner packed with a tool of his own: the sent kernel is loaded only if the bench takes it for the same program as our long one, and
 * the long one is loaded otherwise.
 *
 *   partner DICTIONARY LONG SENT      for example: partner place-tile.dictionary place-tile.kernel place-tile.sent */
#include "spokeshaver.h"

#include <stdio.h>
#include <stdlib.h>
#include <string.h>

/* One byte more than is allowed, so that the bench sees a file that is too long, and refuses it. */
static uint8_t dictionary[SPOKESHAVER_DICTIONARY_BYTES + 1], ours[SPOKESHAVER_KERNEL_MOST + 1], sent[SPOKESHAVER_KERNEL_MOST + 1];

/* What the machine would run. */
static uint8_t loaded[SPOKESHAVER_KERNEL_MOST];

static size_t read_file(const char *name, uint8_t *to, size_t most) {
    FILE *file = fopen(name, "rb");
    if (file == NULL) {
        fprintf(stderr, "partner: %s cannot be read\n", name);
        exit(2);
    }
    size_t length = fread(to, 1, most, file);
    fclose(file);
    return length;
}

int main(int count, char **words) {
    if (count != 4) {
        fprintf(stderr, "usage: partner DICTIONARY LONG SENT\n");
        return 2;
    }
    size_t d = read_file(words[1], dictionary, sizeof dictionary);
    size_t l = read_file(words[2], ours, sizeof ours), s = read_file(words[3], sent, sizeof sent);

    uint64_t answer = spokeshaver_pair(dictionary, d, ours, l, sent, s);
    int accepted = SPOKESHAVER_NUMBER(answer) == SPOKESHAVER_ACCEPTED;
    size_t length = SPOKESHAVER_COUNT(answer);

    if (SPOKESHAVER_NUMBER(answer) == SPOKESHAVER_DIFFERS)
        printf("differs at instruction %lu\n", (unsigned long)SPOKESHAVER_OFFSET(answer));
    else if (!accepted)
        printf("refused: %u at byte %lu\n", SPOKESHAVER_NUMBER(answer), (unsigned long)SPOKESHAVER_OFFSET(answer));

    memcpy(loaded, accepted ? sent : ours, length);
    printf("%s kernel: %lu bytes loaded, %lu instructions\n", accepted ? "sent" : "long", (unsigned long)length,
           (unsigned long)SPOKESHAVER_COUNT(spokeshaver_check(dictionary, d, loaded, length)));
    return accepted ? 0 : 1;
}
