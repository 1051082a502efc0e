/* The proved library, target/staticlib/libpaugmeln.a (written by `tools/build library`).
 *
 * Every buffer is the caller's, lent for the time of the call; nothing is allocated, and nothing is kept between calls, so
 * that several threads may call at the same time. The buffers of one call must not overlap, and no other thread writes to
 * them during the call.
 *
 * A buffer is a pointer and a length in elements, and nothing beyond it is read or written. The pointer must be aligned as C
 * asks for its type: a text or a line may start at any address, words and records at one that is right for a uint32_t. Where the
 * length is 0, nothing is read or written through the pointer, which may then be NULL; with any other length it must not be. The
 * proofs speak of the elements that are there and know no pointers, so this much is tried and not proved (tools/lent-buffers.c).
 */
#ifndef PAUGMELN_H
#define PAUGMELN_H

#include <stddef.h>
#include <stdint.h>

#ifdef __cplusplus
extern "C" {
#endif

/* Characters of a rule file; a longer one is refused with 1. */
#define PAUGMELN_TEXT_MOST 16384

/* The largest board; one that has more of anything is refused with 18. */
#define PAUGMELN_CELLS_MOST 2048
#define PAUGMELN_SLOTS_MOST 256
#define PAUGMELN_CALLS_MOST 64

/* Sizes that a record of the list of instances has room for: a function has at most so many parameters. */
#define PAUGMELN_RECORD_SIZES 8

/* A record: the function, its sizes (one for each parameter of a named type, unused ones 0), then environment, heap and stack
 * of its body at these sizes. It is empty where all of it is 0. */
struct paugmeln_instance {
    uint32_t function;
    uint32_t sizes[PAUGMELN_RECORD_SIZES];
    uint32_t environment;
    uint32_t heap;
    uint32_t stack;
};

/* The least that is lent as the list of instances, in records. A shorter list is refused with 18. */
#define PAUGMELN_LIST_RECORDS 1024

/* The state, in words: one for the cells used, one for each of 24 channels (inputs first, then nodes), and six for each cell of
 * the board. docs/FORMAT.md says what they hold: word 0 the number of cells in use, word 1 + i the cell of channel i, counted
 * from 0. Cell n starts at word PAUGMELN_CELL_AT(n): a tag (1 Bool, 2 Int, or 256 * (t + 1) + c for constructor c of type t),
 * then the Bool (0 or 1), the bits of the Int or the size of the value, then the cells of up to four fields, unused 0. */
#define PAUGMELN_CHANNELS_MOST 24
#define PAUGMELN_HEADER_WORDS (1 + PAUGMELN_CHANNELS_MOST)
#define PAUGMELN_CELL_FIELDS 4
#define PAUGMELN_CELL_WORDS (2 + PAUGMELN_CELL_FIELDS)
#define PAUGMELN_CELL_AT(cell) (PAUGMELN_HEADER_WORDS + PAUGMELN_CELL_WORDS * (size_t)(cell))

/* The least that is lent to start and iteration, in words, for a board of so many cells and slots. A shorter buffer is refused
 * with 18. */
#define PAUGMELN_STATE_WORDS(cells) PAUGMELN_CELL_AT(cells)
#define PAUGMELN_SCRATCH_WORDS 2048
#define PAUGMELN_ENVIRONMENT_WORDS(slots) ((size_t)(slots))

/* The stack, in bytes, that a thread is to have on which paugmeln_check or paugmeln_start is given any rule file: the checker
 * goes as deep as 1,024 bodies, each nested 32. Set by measurement (tools/measure-checking): the deepest files that were tried
 * took 39 MiB. Nothing is proved of the real stack, and the checker does not look how much of it is left. A file that is not so
 * deep needs far less; paugmeln_read, paugmeln_write and paugmeln_find need no more than a thread usually has. */
#define PAUGMELN_STACK_BYTES 268435456

/* The same for paugmeln_iterate: an evaluation goes as deep as 64 calls, each nested 32. The whole call was then measured to
 * take 1,052 KiB (tools/measure-running, docs/PERFORMANCE.md). */
#define PAUGMELN_ITERATE_STACK_BYTES 4194304

/* Number and frame of an answer: 0 where all is well, else why and in which frame of the rule file it is refused. Frames
 * count from 1, without the file's empty lines and those that start with a semicolon; frame 0 names none.
 *
 *    1  the text is longer than 16,384 characters
 *    2  a line is odd, not hexadecimal, spaced other than between pairs, or without its line feed
 *    3  a frame's kind is unknown, out of order or one too many; or there is no node
 *    4  the bytes of a frame end early or go on
 *    5  a code is outside its set
 *    6  an index names nothing that is allowed there
 *    7  a count, a size, a scope or the nesting is over its limit or below its least
 *    8  a type has no constructor without a field of the type itself
 *    9  plain types disagree, or an initial value has another form
 *   10  a type's size is outside 1 to 64
 *   11  sizes disagree, or an adjustment lowers one
 *   12  a condition of a called function fails
 *   13  the measure of a self-call does not fall
 *   14  there would be a 1,025th instance
 *   15, 16, 17  heap, environment or stack needed is above the board's
 *   18  the board is over its maximum, a buffer is too short, or the state is not one of this file
 *   19  the input line is wrong
 *   20, 21, 22  heap, environment or stack is spent
 *   23  a value is too large
 *   24  the buffer is shorter than the strict text
 *   25  a node reads itself by 13, directly or through others
 *
 * The reader answers 1 to 8, the writer 1 to 8 and 24, checker and start 1 to 18 and 25, an iteration 1 to 9, 18 to 23 and 25. Of
 * several the first in this order is answered, but 25, then 18 follow 9; 20 to 23 where the evaluation meets them, with the frame of
 * the channel that is being given its value. 25 names the frame of the lowest node that reads itself. A file that start accepts
 * answers every line with 0 or 19, whatever it holds, as long as the board has what the file needs.
 *
 * The bounds are the cells, slots and calls that a board needs at most, whatever the inputs. They stop at 65,535, and are 0
 * except on acceptance by checker or start and with 15 to 17. */
struct paugmeln_answer {
    uint32_t number;
    uint32_t frame;
    uint32_t heap;
    uint32_t environment;
    uint32_t stack;
};

/* Reads a rule file. The text is lent for reading: its start and its length in bytes. An empty one, NULL with length 0 too,
 * is refused with 3 in frame 1: it has no node. */
struct paugmeln_answer paugmeln_read(const uint8_t *text, size_t length);

/* Writes the strict text of a rule file: its frames in upper-case pairs, one a line, each ended by a line feed, and nothing else.
 * Two files have the same strict text exactly where their frames are the same; that of a strict text is itself.
 *
 * The text is lent as above. The buffer is lent for writing: its start and its length in bytes; what it holds before is not looked
 * at. The strict text is never longer than the text, so a buffer as long as the text is always long enough; a shorter one than the
 * strict text is refused with 24, in frame 0, where nothing else is wrong, and so is NULL with length 0. On acceptance the buffer
 * holds the strict text, which ends with its last line feed, and 0 behind it; on refusal it is 0 in its whole length. */
struct paugmeln_answer paugmeln_write(const uint8_t *text, size_t text_length, uint8_t *buffer, size_t buffer_length);

/* Checks a rule file against a board of so many heap cells, environment slots and calls.
 *
 * The text is lent as above. The list is lent for writing: its start and its length in records, at least
 * PAUGMELN_LIST_RECORDS; what it holds before is not looked at. On acceptance it holds a record for each instance, in order
 * of entry, and empty ones behind them; on refusal every record is empty, however short the list. One record in use may be 0
 * throughout: that of function 0 without sizes, where its three numbers are 0. At the end of the list it looks like an
 * empty one. */
struct paugmeln_answer paugmeln_check(const uint8_t *text, size_t length, uint32_t cells, uint32_t slots, uint32_t calls,
                                      struct paugmeln_instance *list, size_t records);

/* Checks a rule file as paugmeln_check does and starts it: the state is filled with the initial values of its channels.
 *
 * Lent are the text and the list as above, and for writing the state (PAUGMELN_STATE_WORDS of the cells), scratch
 * (PAUGMELN_SCRATCH_WORDS) and the environment's slots (PAUGMELN_ENVIRONMENT_WORDS of the slots). What any of them holds before
 * is not looked at, and each may be longer. The list ends as after a check. The state is filled on acceptance and left as it was
 * on refusal; the rest of a longer one is neither read nor written. Scratch and slots end 0 in their whole length, however the
 * answer. */
struct paugmeln_answer paugmeln_start(const uint8_t *text, size_t length, uint32_t cells, uint32_t slots, uint32_t calls,
                                      struct paugmeln_instance *list, size_t records, uint32_t *state, size_t state_words,
                                      uint32_t *scratch, size_t scratch_words, uint32_t *environment, size_t environment_words);

/* Looks up a function at certain sizes: gives the place, from 0, of the first record of a list that has the function and the
 * sizes of the key, all eight of them, unused ones 0. Where there is none it gives the list's length. The three numbers of the
 * key do not count.
 *
 * The list is lent for reading: its start and its length in records. It may have any length; with length 0 it may be NULL. A
 * record that is 0 throughout has function 0 and no sizes, whether it is in use or not (see paugmeln_check). So a caller asks
 * within the records in use: behind them a key with function 0 and no sizes would find an empty one. */
size_t paugmeln_find(const struct paugmeln_instance *list, size_t records, struct paugmeln_instance key);

/* Takes one input line: gives the inputs its values, then each node the value of its update.
 *
 * Text, state, scratch and environment are lent as to start, the state as start or the last iteration left it; the line with its
 * line feed, of any length. The board may be another one from line to line, as long as it has no more cells than that of the
 * start. On acceptance the state holds the new values; a refusal leaves it as it was. The rest of a longer state is neither read
 * nor written. Scratch and slots end 0 in their whole length, however the answer. */
struct paugmeln_answer paugmeln_iterate(const uint8_t *text, size_t length, uint32_t cells, uint32_t slots, uint32_t calls,
                                        uint32_t *state, size_t state_words, uint32_t *scratch, size_t scratch_words,
                                        uint32_t *environment, size_t environment_words, const uint8_t *line, size_t line_length);

#ifdef __cplusplus
}
#endif

#endif
