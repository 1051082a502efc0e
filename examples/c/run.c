/* Starts the rule file named by the argument with the largest board, feeds it the lines of standard input, and prints after each
 * the value of every channel: `1: Int 5`, `2: Bool true`, or `2: 0.1(7, 0.0)`, constructor 1 of type 0 with its fields.
 *
 *     tools/build library
 *     cc -I include examples/c/run.c target/staticlib/libpaugmeln.a -lpthread -o run-rules
 *     ./run-rules examples/listing3.rules < examples/runs/listing3.lines
 *
 * Exit status: 0 where the file is accepted and every line taken, 1 where the file or a line is refused, 2 where there is no
 * answer.
 */
#define _POSIX_C_SOURCE 200809L
#include "support.h"
#include <stdlib.h>

/* What a rule file may have; docs/FORMAT.md has all limits. */
enum { TYPES_MOST = 8, CONSTRUCTORS_MOST = 8 };

/* The first byte of a frame that is looked at here. */
enum { TYPE = 1, INPUT = 3, NODE = 4 };

/* The code of a field of another type: the type and a size follow. */
enum { OTHER_TYPE_FIELD = 3 };

/* Tags of cells; that of a constructor is TYPE_STEP * (type + 1) + constructor. */
enum { BOOL_TAG = 1, INT_TAG = 2, TYPE_STEP = 256 };

/* All that the calls are lent, and what is known of the file. */
struct board {
    struct rule_file file;
    uint8_t strict[PAUGMELN_TEXT_MOST];
    struct paugmeln_instance list[PAUGMELN_LIST_RECORDS];
    uint32_t state[PAUGMELN_STATE_WORDS(PAUGMELN_CELLS_MOST)];
    uint32_t scratch[PAUGMELN_SCRATCH_WORDS];
    uint32_t environment[PAUGMELN_ENVIRONMENT_WORDS(PAUGMELN_SLOTS_MOST)];
    unsigned field_counts[TYPES_MOST][CONSTRUCTORS_MOST];
    unsigned types, channels;
    int status, failed;
};

static const char *const sentences[] = {
    "all is well",
    "the text is longer than 16,384 characters",
    "a line is odd, not hexadecimal, spaced other than between pairs, or without its line feed",
    "a frame's kind is unknown, out of order or one too many; or there is no node",
    "the bytes of a frame end early or go on",
    "a code is outside its set",
    "an index names nothing that is allowed there",
    "a count, a size, a scope or the nesting is over its limit or below its least",
    "a type has no constructor without a field of the type itself",
    "plain types disagree, or an initial value has another form",
    "a type's size is outside 1 to 64",
    "sizes disagree, or an adjustment lowers one",
    "a condition of a called function fails",
    "the measure of a self-call does not fall",
    "there would be a 1,025th instance",
    "heap needed is above the board's",
    "environment needed is above the board's",
    "stack needed is above the board's",
    "the board is over its maximum, a buffer is too short, or the state is not one of this file",
    "the input line is wrong",
    "heap is spent",
    "environment is spent",
    "stack is spent",
    "a value is too large",
    "the buffer is shorter than the strict text",
    "a node reads itself by 13, directly or through others",
};

static struct paugmeln_answer start(struct board *of)
{
    return paugmeln_start(of->file.text, of->file.length, PAUGMELN_CELLS_MOST, PAUGMELN_SLOTS_MOST, PAUGMELN_CALLS_MOST,
                          of->list, PAUGMELN_LIST_RECORDS, of->state, PAUGMELN_STATE_WORDS(PAUGMELN_CELLS_MOST), of->scratch,
                          PAUGMELN_SCRATCH_WORDS, of->environment, PAUGMELN_ENVIRONMENT_WORDS(PAUGMELN_SLOTS_MOST));
}

static struct paugmeln_answer iterate(struct board *of, const char *line, size_t length)
{
    return paugmeln_iterate(of->file.text, of->file.length, PAUGMELN_CELLS_MOST, PAUGMELN_SLOTS_MOST, PAUGMELN_CALLS_MOST,
                            of->state, PAUGMELN_STATE_WORDS(PAUGMELN_CELLS_MOST), of->scratch, PAUGMELN_SCRATCH_WORDS,
                            of->environment, PAUGMELN_ENVIRONMENT_WORDS(PAUGMELN_SLOTS_MOST), (const uint8_t *)line, length);
}

static unsigned digit(uint8_t character)
{
    int value = character <= '9' ? character - '0' : character - 'A' + 10;
    return (unsigned)value;
}

/* The byte that two digits of a strict text spell. */
static unsigned byte_at(const uint8_t *at)
{
    return 16 * digit(at[0]) + digit(at[1]);
}

/* Notes how many fields each constructor of a type has: the words of a state do not say. */
static void note_type(const uint8_t *frame, unsigned *counts)
{
    unsigned constructors = byte_at(frame + 2);
    const uint8_t *at = frame + 4;
    for (unsigned c = 0; c < constructors; c++) {
        counts[c] = byte_at(at);
        at += 2;
        for (unsigned field = 0; field < counts[c]; field++)
            at += byte_at(at) == OTHER_TYPE_FIELD ? 6 : 2;
    }
}

/* Looks at the frames of an accepted file: in its strict text they stand one a line, and behind it the buffer is 0. */
static void note_frames(struct board *of)
{
    const uint8_t *frame = of->strict, *end = of->strict + sizeof of->strict;
    paugmeln_write(of->file.text, of->file.length, of->strict, sizeof of->strict);
    while (frame < end && *frame != 0) {
        unsigned kind = byte_at(frame);
        if (kind == TYPE)
            note_type(frame, of->field_counts[of->types++]);
        else if (kind == INPUT || kind == NODE)
            of->channels++;
        frame = (const uint8_t *)memchr(frame, '\n', (size_t)(end - frame)) + 1;
    }
}

/* The value of a cell: a number, a word, or a constructor with its fields. */
static void print_bare(const struct board *of, uint32_t cell)
{
    const uint32_t *words = of->state + PAUGMELN_CELL_AT(cell), *fields = words + 2;
    if (words[0] == BOOL_TAG) {
        printf("%s", words[1] ? "true" : "false");
    } else if (words[0] == INT_TAG) {
        printf("%ld", words[1] < 0x80000000u ? (long)words[1] : -(long)(0xFFFFFFFFu - words[1]) - 1);
    } else {
        unsigned type = words[0] / TYPE_STEP - 1, constructor = words[0] % TYPE_STEP;
        unsigned count = of->field_counts[type][constructor];
        printf("%u.%u", type, constructor);
        for (unsigned field = 0; field < count; field++) {
            printf("%s", field == 0 ? "(" : ", ");
            print_bare(of, fields[field]);
        }
        printf("%s", count > 0 ? ")" : "");
    }
}

static void print_channels(const struct board *of)
{
    for (unsigned channel = 0; channel < of->channels; channel++) {
        uint32_t cell = of->state[1 + channel], tag = of->state[PAUGMELN_CELL_AT(cell)];
        printf("%u: %s", channel, tag == BOOL_TAG ? "Bool " : tag == INT_TAG ? "Int " : "");
        print_bare(of, cell);
        printf("\n");
    }
}

static void print_refusal(const char *what, const struct paugmeln_answer *answer)
{
    printf("%s is refused with %u", what, answer->number);
    if (answer->frame != 0)
        printf(" for frame %u of the rule file", answer->frame);
    printf(": %s\n", sentences[answer->number]);
}

static void take_line(struct board *of, const char *line, size_t length)
{
    struct paugmeln_answer answer = iterate(of, line, length);
    if (answer.number == 0) {
        printf("the line is taken\n");
    } else {
        print_refusal("the line", &answer);
        of->status = REFUSED;
    }
    print_channels(of);
}

/* Takes lines, each with its line feed, until there are no more or something cannot be read or written. */
static void take_lines(struct board *of)
{
    char *line = NULL;
    size_t room = 0;
    ssize_t length;
    errno = 0;
    while (!of->failed && (length = getline(&line, &room, stdin)) >= 0) {
        take_line(of, line, (size_t)length);
        of->failed = write_out();
    }
    if (!of->failed && ferror(stdin))
        of->failed = errno;
    free(line);
}

static void *run(void *lent)
{
    struct board *of = lent;
    struct paugmeln_answer answer = start(of);
    if (answer.number != 0) {
        print_refusal("the file", &answer);
        of->status = REFUSED;
        return NULL;
    }
    note_frames(of);
    printf("the file is accepted: heap %u, environment %u, stack %u needed\n", answer.heap, answer.environment, answer.stack);
    print_channels(of);
    take_lines(of);
    return NULL;
}

int main(int count, char **words)
{
    static struct board of;
    if (count != 2) {
        fprintf(stderr, "usage: run FILE < lines\n");
        return NO_ANSWER;
    }
    FILE *file = fopen(words[1], "rb");
    if (file == NULL)
        return no_answer("run", words[1], errno);
    int failed = read_rule_file(file, &of.file);
    fclose(file);
    if (failed)
        return no_answer("run", words[1], failed);
    /* One thread for start and lines: what start asks for is more than enough for a line. */
    failed = on_stack(PAUGMELN_STACK_BYTES, run, &of);
    if (failed)
        return no_answer("run", "no thread with a deep stack", failed);
    if (!of.failed)
        of.failed = write_out();
    return of.failed ? no_answer("run", "standard input or output", of.failed) : of.status;
}
