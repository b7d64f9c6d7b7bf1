/* Spokeshaver: decode, check, pack, unpack, list and run small graphics kernels, keep a log of their runs, and place tiles.
 *
 * Link with libspokeshaver.a (x86-64 Linux; it needs only memcpy and memset of the C library). No call keeps anything between calls, takes memory,
 * writes a file or fails to return. Every call's answer, and every byte of what is lent to it, is proved to be what the rules say, for all inputs.
 *
 * What is lent
 *   A buffer is a pointer and a length in bytes. What is lent as `const uint8_t *` is read only; what is lent as `uint8_t *` may be written.
 *   A call may be given any bytes and any lengths: a wrong size is an answer (1), not an error of the program.
 *   What the caller must not do, since no call can see it:
 *   - lend a NULL or stale pointer with a length over 0, or a length that is more than the memory behind the pointer. With length 0 any pointer will do.
 *   - lend for writing what overlaps anything else that is lent to the same call. What is only read may overlap.
 *   - let another thread write what is lent, or touch what is lent for writing, while the call runs. Calls on separate memory may run at once.
 *   - make a call that adds, multiplies or compares floats (step, run, place) in another floating-point mode than a program starts in: rounding to nearest, subnormal
 *     numbers kept, no exception trapped. A program that is merely linked with -ffast-math flushes them to zero. spokeshaver_floats_exact tells of rounding and flushing;
 *     who enables traps (feenableexcept) must disable them around such a call.
 *   A refusal changes nothing that was lent, but that a run which stops at a bad address (22) keeps the steps that it made before. Of an output, only the
 *   result's bytes are written; what lies behind them stays.
 *
 * Sizes
 *   dictionary  512 bytes: 128 little-endian numbers of four bytes, 32 each for control (17 bits), datatype (18), subregister (15), source (12)
 *   kernel      0 to 65,536 bytes, 0 to 4,096 instructions of 8 bytes (short) or 16 bytes (long)
 *   registers   4,096 bytes: r0 to r127, 32 bytes each
 *   state       58 bytes, below
 *   log         up to 4,294,967,295 bytes, of which the first `count` are the log, below
 *   text        a listing to read, of any length, below
 *   A place is an offset in a kernel in units of 8 bytes.
 *
 * The state's bytes, all numbers 16 bits little-endian
 *    0  flag f0.0, bit n for channel n: what predicates look at, channel by channel or in groups
 *    2  flag f0.1
 *    4  place of the next instruction; at the kernel's end the run is over
 *    6  awake mask, bit n for channel n
 *    8  waiting mask
 *   10  sixteen places, one for each channel: where it waits; 0 if it does not wait
 *   42  a0.0 to a0.7, the address register's eight numbers: any
 *   A channel is awake (its awake bit alone), waiting (its waiting bit alone) or off (neither). Anything else is refused (15).
 *
 * When channels wake
 *   A channel that waits at a place wakes when the step at that place begins, and not before: between two steps its waiting bit is still set. So after an else the
 *   awake mask may be 0, and the next step works on all the channels that wait at the state's place. A step works on the channels that are awake and on those
 *   that wait at its place. No step is made at the kernel's end, and who waits there is not woken.
 *
 * Elements
 *   Byte k of register n is registers[32 * n + k]. An element has its lowest byte first: word 3 of r4 is registers[134] + 256 * registers[135]. Signed types are in
 *   two's complement. Types, by code: ud 0 and d 1 of four bytes, uw 2 and w 3 of two, ub 4 and b 5 of one, f 7, a single float, of four; as immediates ud, d, uw, w,
 *   f, and vf 5, four restricted floats in four bytes, channel 0's the lowest.
 *
 * Operations, by opcode; a and b are what src0 and src1 hold, as exact whole numbers
 *   0x01 mov    a
 *   0x02 sel    a where the predicate holds, else b
 *   0x04 not    the 32 bits of a turned over
 *   0x05 and    the 32 bits of a and b, bit by bit
 *   0x06 or     the same
 *   0x07 xor    the same
 *   0x08 shr    a divided by 2 to the power b modulo 32, rounded down; src0 is unsigned
 *   0x09 shl    a times 2 to the power b modulo 32
 *   0x0C asr    as shr; src0 is signed
 *   0x10 cmp    1 where a - b meets the condition, else 0; and so the flag's bits
 *   0x20 jmpi   the run goes on elsewhere
 *   0x22 if     channels whose predicate fails wait
 *   0x24 else   all awake channels wait
 *   0x25 endif  those that wait here are awake
 *   0x27 while  back, as long as a channel's predicate holds; the others wait behind
 *   0x28 break  channels whose predicate holds wait
 *   0x29 cont   the same
 *   0x40 add    a + b
 *   0x41 mul    a * b, of words and bytes
 *   0x42 avg    (a + b + 1) / 2, rounded down
 *   0x7E nop    nothing
 *   Where an operand is f or vf all are, a null destination by its type; the operation is mov, add, mul or cmp, without Saturate; vf is for up to four channels.
 *   Sums and products round once, to nearest, ties to even; subnormal numbers are kept; any NaN that they give is 0x7FC00000. mov copies bits. Modifiers act on the
 *   sign bit. cmp compares the floats themselves, with a NaN it is false but for nz, and a destination gets the bits of the whole number 1 or 0. A byte of vf is a
 *   sign, three bits e and four bits f, the lowest: (16 + f) / 16 * 2^(e - 3), but 0x00 and 0x80 are 0 and -0.
 *   A result is stored modulo the destination type's width; with Saturate (mov, sel, add, mul, avg of whole numbers) it is clamped to the type. mov and not have one
 *   source. Regions, predicates, branches step by step, and what each operation asks of its operands: docs/KERNELS.md.
 *
 * Registers by address
 *   A source or destination in the registers may be found by address: at the byte that an element of a0 holds, and -512 to 511 bytes on, as the instruction
 *   says. Where that leads is known only while the kernel runs. At each step, before any channel wakes, it must lead to an operand that lies well, all its
 *   elements counted, of channels that are off too: its first byte a multiple of the element's size, every byte among the 4,096, the first and the last in
 *   the same register or in neighbours. If it does not, the step is not made (22). a0 itself is read and written by mov with uw operands.
 */
#ifndef SPOKESHAVER_H
#define SPOKESHAVER_H

#include <stddef.h>
#include <stdint.h>

#ifdef __cplusplus
extern "C" {
#endif

/* The version. A change of what a caller may rely on moves the first number, something new the second, a mended text or program the third. */
#define SPOKESHAVER_VERSION "1.0.0"
#define SPOKESHAVER_VERSION_NUMBER 10000 /* 10,000 times the first, 100 times the second, and the third, for #if */

/* Sizes in bytes, and limits. */
#define SPOKESHAVER_DICTIONARY_BYTES 512
#define SPOKESHAVER_REGISTER_BYTES 4096
#define SPOKESHAVER_STATE_BYTES 58
#define SPOKESHAVER_KERNEL_MOST 65536
#define SPOKESHAVER_INSTRUCTIONS_MOST 4096
#define SPOKESHAVER_BUDGET_MOST 1000000
#define SPOKESHAVER_LONG_WORD_BYTES 16
#define SPOKESHAVER_SHORT_WORD_BYTES 8
#define SPOKESHAVER_LINES_MOST 70 /* of one instruction in a listing */

/* An answer is one number; these take it apart.
 *   NUMBER  a verdict or a refusal, below
 *   OFFSET  of a refused instruction, in bytes from the kernel's start; 0 for 1, 2, 13 to 16, 32, decode's 3 at or past the end, and every verdict;
 *           for 30 in bytes from the text's start, for 31 an instruction's number, counted from 0
 *   COUNT   instructions (check); 1 or 0 (forward); bytes of the result (pack, unpack, shorten, expand, list, read), of the instruction (decode) or of the kernel
 *           to load (pair, refusals too); steps made (run, 22 too); bytes of a log (log_read, log_append, log_run) or its records (log_runs); 0 for
 *           start, step and every refusal but pair's, a run's 22, and 14 of a log, which gives the count back */
#define SPOKESHAVER_NUMBER(answer) ((unsigned)((uint64_t)(answer) & 0xFF))
#define SPOKESHAVER_OFFSET(answer) ((uint32_t)((uint64_t)(answer) >> 8 & 0xFFFFFF))
#define SPOKESHAVER_COUNT(answer) ((uint32_t)((uint64_t)(answer) >> 32))

/* Verdicts. */
#define SPOKESHAVER_ACCEPTED 0 /* accepted, written, or one step made */
#define SPOKESHAVER_ENDED 20   /* step, run: the place is the kernel's end */
#define SPOKESHAVER_SPENT 21   /* run: the budget is spent short of the end */

/* Refusals. Where more than one would do, the first of this list is given: 3 to 11 and 17 instruction by instruction, 12 after all have passed. 22 is judged at
 * each step, after ENDED and SPENT. */
#define SPOKESHAVER_WRONG_SIZE 1        /* registers, state or dictionary of another size, a kernel over 65,536 bytes, a word not of 16 (shorten) or 8 (expand), a record not of 24 (place, place_load), a count over the log's buffer, a buffer over 4,294,967,295 bytes */
#define SPOKESHAVER_BUDGET_OVER 16      /* a budget over 1,000,000 */
#define SPOKESHAVER_WIDE_DICTIONARY 2   /* a dictionary number is wider than its table */
#define SPOKESHAVER_TOO_MANY 17         /* this would be the 4,097th instruction */
#define SPOKESHAVER_CUT_SHORT 3         /* under 8 bytes left, or a long word with under 16; decode: a place at or past the end */
#define SPOKESHAVER_UNLISTED 4          /* an opcode that is not listed */
#define SPOKESHAVER_WRONG_FORM 5        /* a short branch; a short word where a long one is asked, or the reverse */
#define SPOKESHAVER_RESERVED_BITS 6     /* a bit is set that must be clear */
#define SPOKESHAVER_NOT_SERVED 7        /* a field has a value that is not served, a predicate's group is larger than the size, a0 is an operand of what is not a mov of uw operands, or a float of what is not a mov, add, mul or cmp without Saturate; place: no such order */
#define SPOKESHAVER_OPERAND_RULE 8      /* an operand rule is broken */
#define SPOKESHAVER_REGION_SHAPE 9      /* a stride or width is undefined, the size is under the width, a source has a shape on which the machine hangs (docs/CHECKING.md), or the destination's stride is 0 */
#define SPOKESHAVER_UNALIGNED 10        /* a subregister, of an operand that is not by address, is no multiple of the element's size */
#define SPOKESHAVER_OUT_OF_REACH 11     /* an operand that is not by address spans more than two registers, or goes past r127, or past the 16 bytes of a0 */
#define SPOKESHAVER_STRAY_JUMP 12       /* a jump lands on no instruction's start and not on the end; of break and cont JIP or UIP */
#define SPOKESHAVER_BAD_STATE 15        /* a place in the state is no instruction's start and not the end, or a channel is none of the three */
#define SPOKESHAVER_BAD_ADDRESS 22      /* step, run: an operand by address is misaligned, outside of the registers, or spans more than two of them */
#define SPOKESHAVER_NO_SHORT_WORD 13    /* shorten: no short word expands to it */
#define SPOKESHAVER_NO_LOG 32           /* logs: the text is no beginning of a log, or a value is out of its range; judged before 14 */
#define SPOKESHAVER_NO_LISTING 30       /* read: the text is the listing of no kernel that is accepted; judged before 14 */
#define SPOKESHAVER_OUTPUT_TOO_SHORT 14 /* the output is shorter than the result */
#define SPOKESHAVER_DIFFERS 31          /* pair: the sent kernel is another program than the long one */

/* What a number means, as a sentence without its full stop; "unknown" for a number that no call answers. */
static inline const char *spokeshaver_message(unsigned number) {
    switch (number) {
    case 0: return "accepted, written, or one step made";
    case 1: return "a size is wrong";
    case 2: return "a number of the dictionary is wider than its table";
    case 3: return "no whole instruction is left";
    case 4: return "the opcode is not listed";
    case 5: return "a branch is short, or a word has not the form that is asked";
    case 6: return "a bit is set that must be clear";
    case 7: return "a field has a value that is not served";
    case 8: return "an operand rule is broken";
    case 9: return "a region has a shape that is not allowed, or the destination's stride is 0";
    case 10: return "a subregister is no multiple of its element's size";
    case 11: return "an operand spans more than two registers, or goes past the last one";
    case 12: return "a jump lands on no instruction's start and not on the end";
    case 13: return "no short word expands to this word";
    case 14: return "the output is shorter than the result";
    case 15: return "a place in the state is no instruction's start and not the end, or a channel is neither off, awake nor waiting";
    case 16: return "the budget is over 1,000,000";
    case 17: return "this would be the 4,097th instruction";
    case 20: return "the place is the kernel's end";
    case 21: return "the budget is spent short of the end";
    case 22: return "an operand by address is misaligned, leaves the registers, or spans more than two of them";
    case 30: return "the text is the listing of no kernel that is accepted";
    case 31: return "the sent kernel is another program than the long one";
    case 32: return "the text is no beginning of a log of runs, or a value is out of its range";
    default: return "unknown";
    }
}

/* What an answer does not tell, the caller can:
 *   1   which size: each length that was lent against the sizes above
 *   2   which number of the dictionary: the first with a bit at or above its table's width, 17, 18, 15 or 12
 *   14  how much room: kernel_len for pack; for each instruction that check counts 16 bytes for unpack and SPOKESHAVER_LINES_MOST for list; 16 for each six lines that
 *       are read; 8 for shorten, 16 for expand; SPOKESHAVER_POINT_BYTES for place and SPOKESHAVER_PLACE_KERNEL_BYTES for place_kernel; 64 bytes behind the whole records for another record
 *   15  which place or channel: a place that is no `place=` of the kernel's listing and not kernel_len / 8; a channel with both bits set, or with a waiting place and
 *       without the waiting bit */

/* Is the kernel accepted? ACCEPTED with its instructions as count; or 1, 2, 3 to 12, 17. */
uint64_t spokeshaver_check(const uint8_t *dictionary, size_t dictionary_len, const uint8_t *kernel, size_t kernel_len);

/* Is the kernel accepted, and does every jump go forward? ACCEPTED with count 1 if every target lies after its branch, with 0 if one does not; or what check
 * refuses. With count 1 every run from a start, whatever the registers, flags and mask, with a budget from the kernel's instructions to 1,000,000 gives ENDED,
 * or BAD_ADDRESS where an address leads astray, within as many steps as there are instructions; and so it is with the packed kernel, of which this call
 * answers the same. */
uint64_t spokeshaver_forward(const uint8_t *dictionary, size_t dictionary_len, const uint8_t *kernel, size_t kernel_len);

/* Packs a kernel of long words: each that can be is shortened, each jump still reaches the same instruction. The result stands at the front of `out`;
 * kernel_len bytes are always enough for it. ACCEPTED with the result's bytes as count; or what check refuses (but 1 for 4,097 long words, which are too many
 * bytes), 5 for a short word, 14. */
uint64_t spokeshaver_pack(const uint8_t *dictionary, size_t dictionary_len, const uint8_t *kernel, size_t kernel_len, uint8_t *out, size_t out_len);

/* Unpacks a kernel: every word becomes long. 16 bytes for each instruction are enough, and so 2 * kernel_len bytes are.
 * ACCEPTED with the result's bytes as count; or what check refuses, 14. */
uint64_t spokeshaver_unpack(const uint8_t *dictionary, size_t dictionary_len, const uint8_t *kernel, size_t kernel_len, uint8_t *out, size_t out_len);

/* Compares a long kernel with one that somebody else packed and sent for it, under one dictionary for both. ACCEPTED exactly if both pass check, the long
 * one with long words only, and unpacking the sent one gives the long one: each word of the sent kernel is the long word itself or any short word that expands
 * to it, and each branch is its partner but for distances, which reach the same instruction counted from the first. An accepted kernel runs as the long one does.
 * What check refuses of the long kernel comes first (5 for a short word in it), then what it refuses of the sent one; then DIFFERS, with the number of the
 * first instruction that differs in the place of the offset, or the smaller number of instructions if one kernel is the beginning of the other.
 * The count is the length of the kernel to load, whatever the number: the sent one if ACCEPTED, else the long one; 0 where the long one is refused. */
uint64_t spokeshaver_pair(const uint8_t *dictionary, size_t dictionary_len, const uint8_t *long_kernel, size_t long_len, const uint8_t *sent, size_t sent_len);

/* Shortens one long word of 16 bytes to the smallest short word that expands to it. ACCEPTED with count 8; or 1, 2, 4, 5, 13, 14. */
uint64_t spokeshaver_shorten(const uint8_t *dictionary, size_t dictionary_len, const uint8_t *word, size_t word_len, uint8_t *out, size_t out_len);

/* Expands one short word of 8 bytes. ACCEPTED with count 16; or 1, 2, 4, 5, 14. */
uint64_t spokeshaver_expand(const uint8_t *dictionary, size_t dictionary_len, const uint8_t *word, size_t word_len, uint8_t *out, size_t out_len);

/* Judges the one instruction at a place, which need not be one that the kernel itself has there. Its bytes are `count` bytes from
 * kernel + 8 * place on. ACCEPTED with count 8 or 16; or 1, 2, 3 to 11. */
uint64_t spokeshaver_decode(const uint8_t *dictionary, size_t dictionary_len, const uint8_t *kernel, size_t kernel_len, uint64_t place);

/* Writes the state before the first step: place 0, the flags f0.0 and f0.1 as given, channel n awake if bit n of the mask is 1 and off for good if it
 * is 0, a0 zero. Other numbers may be put into a0 before a run. ACCEPTED, or 1. */
uint64_t spokeshaver_start(uint16_t mask, uint16_t flag0, uint16_t flag1, uint8_t *state, size_t state_len);

/* Judges the kernel and the state, then makes one step. ACCEPTED; ENDED, where nothing changes; or what check refuses, 15; or BAD_ADDRESS with the offset of the
 * instruction at the state's place, where nothing changes either: the channels that wait there go on waiting. */
uint64_t spokeshaver_step(const uint8_t *dictionary, size_t dictionary_len, const uint8_t *kernel, size_t kernel_len,
                          uint8_t *registers, size_t registers_len, uint8_t *state, size_t state_len);

/* Judges the kernel and the state once, then makes the budget's steps unless the end or a bad address comes first. ENDED or SPENT with the steps made as count;
 * BAD_ADDRESS with the steps made before it as count, which are kept, and the offset of the instruction that was not made; or what check refuses, 15, 16. After
 * SPENT a further run goes on where this one stopped. If a run of at least one step gives SPENT and leaves registers and state as they were, no run from there
 * ever ends. */
uint64_t spokeshaver_run(const uint8_t *dictionary, size_t dictionary_len, const uint8_t *kernel, size_t kernel_len, uint64_t budget,
                         uint8_t *registers, size_t registers_len, uint8_t *state, size_t state_len);

/* A log of finished runs: the first `count` bytes of a buffer. Each record is six lines, a newline after each, numbers in decimal without leading zeros:
 *   run=0          the runs count up from 0
 *   verdict=20     20 to 22
 *   steps=0        to 1,000,000
 *   place=0        to 8,192
 *   awake=16       how many channels are awake at the end, to 16
 *   end=1
 * Power may go after any byte. What is then left is a beginning of a log: whole records, and perhaps a part of one more. Any other text is refused (32), also
 * where only the torn tail is wrong. After a cut: log_read first, cut what is kept (a file, say) to its count, and only then append. A count that still takes in
 * a torn tail is no harm to a call; but if power goes again while that tail is overwritten, such a count covers a mixture of old and new. */

/* Reads a log. ACCEPTED with the bytes of its whole records as count, which are the buffer's first; or 1 (a count over log_len, or log_len over 4,294,967,295), 32. */
uint64_t spokeshaver_log_read(const uint8_t *log, size_t log_len, uint64_t count);

/* The same with the number of whole records as count. */
uint64_t spokeshaver_log_runs(const uint8_t *log, size_t log_len, uint64_t count);

/* Appends a record where the whole records stop; a torn tail is cut off first. ACCEPTED with the log's bytes as count, what lies behind them as it was; or 1, 32 (a
 * value out of its range too), 14 with the count given, if the record does not fit in log_len bytes. */
uint64_t spokeshaver_log_append(uint8_t *log, size_t log_len, uint64_t count, uint64_t verdict, uint64_t steps, uint64_t place, uint64_t awake);

/* Appends what a run answered and the state that it left: its NUMBER, its COUNT, the state's place and how many bits of the awake mask are set. Nothing else of
 * answer and state is looked at. As log_append; 1 also for a state of another size. */
uint64_t spokeshaver_log_run(uint8_t *log, size_t log_len, uint64_t count, uint64_t answer, const uint8_t *state, size_t state_len);

/* A listing of a kernel: six lines for each instruction, in the kernel's order, a newline after each and nothing else.
 *   place=0          its own place, in decimal without leading zeros
 *   form=short       short or long
 *   w0=00600040      the four dwords of the expanded word, the lowest first, eight lowercase hex digits each
 *   w1=208014a5
 *   w2=008d0040
 *   w3=008d0060
 * An instruction has at most 70 bytes of lines. The empty kernel has the empty text. */

/* Lists a kernel. ACCEPTED with the text's bytes as count, which stand at the front of `out`; SPOKESHAVER_LINES_MOST bytes for each instruction that check counts are
 * always enough. Or what check refuses, 14. */
uint64_t spokeshaver_list(const uint8_t *dictionary, size_t dictionary_len, const uint8_t *kernel, size_t kernel_len, uint8_t *out, size_t out_len);

/* Reads a listing. ACCEPTED with the kernel's bytes as count, each short word being the smallest that expands to its word: the listed kernel itself where its short
 * words are the smallest, and always a kernel with the same instructions at the same places. Listing it gives the text. 16 bytes for each six lines are enough. Or 1
 * (the dictionary's size), 2, NO_LISTING, 14. The offset of NO_LISTING is the byte of the text where the first faulty instruction's lines begin: they are not in this form,
 * or the text ends inside of them, or the word is one that the bench refuses (4 to 11, or bit 29 is set) or is to be short and cannot be, or it would be the 4,097th. Jumps
 * that land nowhere come after all the rest: the lines of the first one. */
uint64_t spokeshaver_read(const uint8_t *dictionary, size_t dictionary_len, const uint8_t *text, size_t text_len, uint8_t *out, size_t out_len);

/* ---- placing tiles: floats cross as their 32-bit patterns, which memcpy gives; a record is 24 bytes, six little-endian patterns a to f */
#define SPOKESHAVER_RECORD_BYTES 24
#define SPOKESHAVER_POINT_BYTES 8
#define SPOKESHAVER_PLACE_KERNEL_BYTES 128

/* Orders of spokeshaver_place. */
#define SPOKESHAVER_KEEP 0  /* x and y, their bits untouched */
#define SPOKESHAVER_SHIFT 1 /* x + c and y + f */
#define SPOKESHAVER_PLACE 2 /* (a * x + b * y) + c and (d * x + e * y) + f, each product and sum rounded once */

/* Answers an order for a tile at x and y: the two patterns, little-endian, at the front of `out`. ACCEPTED with count 8; or 1 for a record that is not of 24 bytes, which
 * every order takes, 7 for another order, 14. */
uint64_t spokeshaver_place(uint64_t order, const uint8_t *record, size_t record_len, uint32_t x, uint32_t y, uint8_t *out, size_t out_len);

/* Writes the fixed kernel that places sixteen tiles by one record, in long words. ACCEPTED with count 128; or 14. It finds the x of channel n in r2 and r3 (float n), the y in
 * r4 and r5, the record in r6 from its first byte, and leaves the answers in r8 and r9, r10 and r11; r12 and r13 are its own. Every legal dictionary accepts it. From a start
 * with any mask it ends after 8 steps, and the answers of each channel that is awake are the bits that spokeshaver_place gives for SPOKESHAVER_PLACE. */
uint64_t spokeshaver_place_kernel(uint8_t *out, size_t out_len);

/* Puts a record where the fixed kernel finds it. ACCEPTED; or 1 for a record that is not of 24 bytes or registers that are not of 4,096. */
uint64_t spokeshaver_place_load(const uint8_t *record, size_t record_len, uint8_t *registers, size_t registers_len);

/* 1 if the processor's floating-point mode is the one that floats need, and 0 if it rounds in another direction or flushes subnormal numbers to zero: three sums by
 * spokeshaver_place. */
static inline int spokeshaver_floats_exact(void) {
    static const uint32_t sums[3][3] = {{1, 1, 2}, {0x4B800000, 0x3F800000, 0x4B800000}, {0x4B800001, 0x3F800000, 0x4B800002}};
    int k, n;
    for (k = 0; k < 3; k++) {
        uint8_t record[SPOKESHAVER_RECORD_BYTES] = {0}, out[SPOKESHAVER_POINT_BYTES] = {0};
        uint32_t sum = 0;
        for (n = 0; n < 4; n++) record[8 + n] = (uint8_t)(sums[k][1] >> (8 * n));
        spokeshaver_place(SPOKESHAVER_SHIFT, record, sizeof record, sums[k][0], 0, out, sizeof out);
        for (n = 0; n < 4; n++) sum |= (uint32_t)out[n] << (8 * n);
        if (sum != sums[k][2]) return 0;
    }
    return 1;
}

#ifdef __cplusplus
}
#endif

#endif
