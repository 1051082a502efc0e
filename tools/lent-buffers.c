/* Tries what include/paugmeln.h says of lent buffers: that nothing is touched beyond them, nothing at all through a pointer
 * with length 0, and that the old contents of the list, of scratch and slots, of the buffer for the strict text, and at a start
 * of the state are not looked at; and that the key of a look-up, which is given by value, arrives whole. Pages that may not be
 * touched stand before and behind each buffer. Answers 0 where all holds; run under valgrind it also shows that nothing unset
 * is used. */
#define _GNU_SOURCE
#include <paugmeln.h>
#include <stdio.h>
#include <stdlib.h>
#include <string.h>
#include <sys/mman.h>
#include <unistd.h>

/* A record is laid out as docs/FORMAT.md says. */
#define STANDS_AT(field, offset) _Static_assert(offsetof(struct paugmeln_instance, field) == (offset), #field)
STANDS_AT(function, 0);
STANDS_AT(sizes, 4);
STANDS_AT(environment, 36);
STANDS_AT(heap, 40);
STANDS_AT(stack, 44);
_Static_assert(sizeof(struct paugmeln_instance) == 48, "the size of a record");
_Static_assert(_Alignof(struct paugmeln_instance) == _Alignof(uint32_t), "the alignment of a record");

static const char two_lines[] = "03011100000000\n04011100000000170014011300\n";
#define LENGTH (sizeof two_lines - 1)

static int wrong;

static void expect(int holds, const char *what)
{
    if (!holds) {
        fprintf(stderr, "lent-buffers: wrong: %s\n", what);
        wrong = 1;
    }
}

/* Room for so many bytes between two pages that may not be touched; it ends where the second of them starts. */
static uint8_t *fenced(size_t bytes)
{
    size_t page = (size_t)sysconf(_SC_PAGESIZE), inside = (bytes + page - 1) / page * page;
    uint8_t *all = mmap(NULL, inside + 2 * page, PROT_NONE, MAP_PRIVATE | MAP_ANONYMOUS, -1, 0);
    if (all == MAP_FAILED || (inside > 0 && mprotect(all + page, inside, PROT_READ | PROT_WRITE) != 0)) {
        fprintf(stderr, "lent-buffers: no memory\n");
        exit(2);
    }
    return all + page + inside - bytes;
}

static uint8_t *fenced_text(const char *text, size_t length)
{
    return memcpy(fenced(length), text, length);
}

static uint32_t *fenced_words(size_t words)
{
    return (uint32_t *)fenced(words * sizeof(uint32_t));
}

static struct paugmeln_instance *fenced_list(size_t records)
{
    return (struct paugmeln_instance *)fenced(records * sizeof(struct paugmeln_instance));
}

static struct paugmeln_answer check(const uint8_t *text, size_t length, struct paugmeln_instance *list, size_t records)
{
    return paugmeln_check(text, length, PAUGMELN_CELLS_MOST, PAUGMELN_SLOTS_MOST, PAUGMELN_CALLS_MOST, list, records);
}

static int is_zero(const uint32_t *buffer, size_t words)
{
    while (words > 0 && buffer[words - 1] == 0)
        words--;
    return words == 0;
}

static int all_empty(const struct paugmeln_instance *list, size_t records)
{
    return is_zero((const uint32_t *)list, records * (sizeof *list / sizeof(uint32_t)));
}

/* Sets every bit of a list. */
static void soil(struct paugmeln_instance *list, size_t records)
{
    memset(list, 0xFF, records * sizeof *list);
}

/* An empty text is refused with 3 in frame 1, wherever it stands. */
static void try_empty_text(const uint8_t *text, const char *where)
{
    struct paugmeln_instance *list = malloc(PAUGMELN_LIST_RECORDS * sizeof *list);
    struct paugmeln_answer read = paugmeln_read(text, 0);
    expect(read.number == 3 && read.frame == 1, where);
    struct paugmeln_answer checked = check(text, 0, list, PAUGMELN_LIST_RECORDS);
    expect(checked.number == 3 && checked.frame == 1, where);
    expect(all_empty(list, PAUGMELN_LIST_RECORDS), "every record is empty after a refusal");
    free(list);
}

/* An empty list is too short: 18, for a file that passes plain types; and no other answer changes. */
static void try_empty_list(struct paugmeln_instance *list, const char *where)
{
    const uint8_t *text = (const uint8_t *)two_lines;
    expect(check(text, LENGTH, list, 0).number == 18, where);
    expect(check(text, LENGTH - 1, list, 0).number == 2, where);
}

/* The text at every place in a word, between fences, and the list between fences, unset before. */
static void try_exact_buffers(void)
{
    struct paugmeln_instance *list = fenced_list(PAUGMELN_LIST_RECORDS);
    for (size_t cut = 0; cut < 8; cut++) {
        const uint8_t *text = fenced_text(two_lines, LENGTH - cut);
        uint32_t expected = cut == 0 ? 0 : 2;
        expect(paugmeln_read(text, LENGTH - cut).number == expected, "reading between fences");
        expect(check(text, LENGTH - cut, list, PAUGMELN_LIST_RECORDS).number == expected, "checking between fences");
        expect(all_empty(list, PAUGMELN_LIST_RECORDS), "no instance");
    }
}

/* A list between fences, every bit of it set before. The two lines have no instance, so its records end empty either way. */
static void try_list(size_t records, uint32_t expected, const char *which)
{
    struct paugmeln_instance *list = fenced_list(records);
    soil(list, records);
    expect(check((const uint8_t *)two_lines, LENGTH, list, records).number == expected, which);
    expect(all_empty(list, records), which);
}

static void try_lists(void)
{
    try_list(1, 18, "a list of one record");
    try_list(PAUGMELN_LIST_RECORDS - 1, 18, "a list one record too short");
    try_list(PAUGMELN_LIST_RECORDS, 0, "a list as long as is asked");
    try_list(PAUGMELN_LIST_RECORDS + 1, 0, "a list one record longer");
    try_list(2 * PAUGMELN_LIST_RECORDS, 0, "a list twice as long");
}

/* The two lines with what an editor adds, longer than they are themselves. */
static const char typed[] = "; two frames\r\n\r\n03 01 11 00000000\r\n04 01 1100000000 1700 1401 1300\n";
#define TYPED_LENGTH (sizeof typed - 1)

/* Whether a buffer holds the two lines, or none of them, and is 0 behind. */
static int holds(const uint8_t *buffer, size_t length, size_t written)
{
    for (size_t at = 0; at < length; at++)
        if (buffer[at] != (at < written ? (uint8_t)two_lines[at] : 0))
            return 0;
    return 1;
}

/* A buffer between fences, every bit of it set before, and the text at its end up to a fence. */
static void try_write(size_t cut, size_t length, uint32_t expected, const char *which)
{
    uint8_t *buffer = fenced(length);
    memset(buffer, 0xFF, length);
    const uint8_t *text = fenced_text(typed, TYPED_LENGTH - cut);
    struct paugmeln_answer answer = paugmeln_write(text, TYPED_LENGTH - cut, buffer, length);
    expect(answer.number == expected && answer.frame == (expected == 2 ? 2 : 0), which);
    expect(answer.heap == 0 && answer.environment == 0 && answer.stack == 0, "the writer's bounds");
    expect(holds(buffer, length, expected == 0 ? LENGTH : 0), which);
}

static void try_writes(void)
{
    try_write(0, LENGTH, 0, "a buffer as long as the strict text");
    try_write(0, LENGTH + 1, 0, "a buffer one byte longer");
    try_write(0, 3 * LENGTH, 0, "a buffer three times as long");
    try_write(0, LENGTH - 1, 24, "a buffer one byte too short");
    try_write(0, 1, 24, "a buffer of one byte");
    try_write(0, 0, 24, "a buffer that may not be touched, length 0");
    try_write(1, LENGTH, 2, "a text without its last line feed");
    expect(paugmeln_write((const uint8_t *)typed, TYPED_LENGTH, NULL, 0).number == 24, "buffer NULL, length 0");
    uint8_t buffer[3] = {1, 2, 3};
    expect(paugmeln_write(NULL, 0, buffer, sizeof buffer).number == 3, "writing text NULL, length 0");
    expect(holds(buffer, sizeof buffer, 0), "the buffer after a refusal");
}

/* A list between fences, no word of it like another; so many bytes stand between its end and the fence. */
static struct paugmeln_instance *counted_list(size_t records, size_t before_fence)
{
    size_t bytes = records * sizeof(struct paugmeln_instance);
    uint32_t *words = (uint32_t *)fenced(bytes + before_fence);
    for (uint32_t at = 0; at < bytes / sizeof *words; at++)
        words[at] = at + 1;
    return (struct paugmeln_instance *)words;
}

/* The record of this place is found by the bytes of its function and sizes; those of its three numbers do not count. */
static void try_key(const struct paugmeln_instance *list, size_t records, size_t place)
{
    expect(paugmeln_find(list, records, list[place]) == place, "a record is found at its place");
    for (size_t byte = 0; byte < sizeof *list; byte++) {
        struct paugmeln_instance key = list[place];
        ((uint8_t *)&key)[byte] ^= 0xFF;
        int counts = byte < offsetof(struct paugmeln_instance, environment);
        expect(paugmeln_find(list, records, key) == (counts ? records : place), "a key with one byte changed");
    }
}

/* Records of a list between fences, at every place in 16 bytes that is right for a word. */
static void try_find(size_t records)
{
    for (size_t before_fence = 0; before_fence < 16; before_fence += sizeof(uint32_t)) {
        struct paugmeln_instance *list = counted_list(records, before_fence);
        try_key(list, records, 0);
        try_key(list, records, records / 2);
        try_key(list, records, records - 1);
        expect(paugmeln_find(list, records / 2, list[records - 1]) == records / 2, "a record behind the list is not found");
        list[records - 1] = list[0];
        expect(paugmeln_find(list, records, list[records - 1]) == 0, "the first of two is found");
    }
}

/* In an empty list nothing is found, its length is given. */
static void try_find_in_empty_list(const struct paugmeln_instance *list, const char *where)
{
    static const struct paugmeln_instance zero, other = {1, {2, 3}, 4, 5, 6};
    expect(paugmeln_find(list, 0, zero) == 0, where);
    expect(paugmeln_find(list, 0, other) == 0, where);
}

/* The board that the two lines need, a line for them, and what start and iteration are lent. */
enum { CELLS = 4, SLOTS = 0, CALLS = 0 };
static const char input_5[] = "051100000005\n";

struct lent {
    struct paugmeln_instance *list;
    uint32_t *state, *scratch, *environment;
    size_t records, state_words, scratch_words, environment_words;
};

/* Exactly what is asked for with so many slots, unset. */
static struct lent fenced_lent(uint32_t slots)
{
    struct lent of = {NULL, NULL, NULL, NULL, PAUGMELN_LIST_RECORDS, PAUGMELN_STATE_WORDS(CELLS), PAUGMELN_SCRATCH_WORDS,
                      PAUGMELN_ENVIRONMENT_WORDS(slots)};
    of.list = fenced_list(of.records);
    of.state = fenced_words(of.state_words);
    of.scratch = fenced_words(of.scratch_words);
    of.environment = fenced_words(of.environment_words);
    return of;
}

static struct paugmeln_answer start(const struct lent *of, uint32_t slots)
{
    return paugmeln_start((const uint8_t *)two_lines, LENGTH, CELLS, slots, CALLS, of->list, of->records, of->state,
                          of->state_words, of->scratch, of->scratch_words, of->environment, of->environment_words);
}

static struct paugmeln_answer iterate(const struct lent *of, uint32_t slots, const uint8_t *line, size_t length)
{
    return paugmeln_iterate((const uint8_t *)two_lines, LENGTH, CELLS, slots, CALLS, of->state, of->state_words, of->scratch,
                            of->scratch_words, of->environment, of->environment_words, line, length);
}

static void expect_cleared(const struct lent *of, const char *where)
{
    expect(is_zero(of->scratch, of->scratch_words) && is_zero(of->environment, of->environment_words), where);
}

/* Start, then a line at every place in a word, then lines of length 0, with buffers between fences. */
static void try_run(struct lent of, const char *where)
{
    size_t length = sizeof input_5 - 1;
    expect(start(&of, SLOTS).number == 0, where);
    expect_cleared(&of, "scratch and slots after a start");
    for (uint32_t cut = 0; cut < 8; cut++) {
        const uint8_t *line = fenced_text(input_5, length - cut);
        expect(iterate(&of, SLOTS, line, length - cut).number == (cut == 0 ? 0 : 19), where);
        expect_cleared(&of, "scratch and slots after a line");
    }
    expect(of.state[PAUGMELN_CELL_AT(of.state[2]) + 1] == 5, "the node is 5");
    expect(iterate(&of, SLOTS, NULL, 0).number == 19, "line NULL, length 0");
    expect(iterate(&of, SLOTS, fenced(0), 0).number == 19, "line that may not be touched, length 0");
}

/* A buffer one element too short is refused with 18; list, scratch and slots are cleared as far as they go, the state is left. */
static void try_short(size_t *length, const struct lent *of, const char *which)
{
    of->state[0] = 7;
    *length -= 1;
    soil(of->list, of->records);
    expect(start(of, 1).number == 18, which);
    expect(of->state[0] == 7, "a refused start leaves the state");
    expect(all_empty(of->list, of->records), "a refused start leaves empty records");
    expect_cleared(of, which);
    *length += 1;
}

static void try_short_buffers(void)
{
    struct lent of = fenced_lent(1);
    try_short(&of.records, &of, "list too short");
    try_short(&of.state_words, &of, "state too short");
    try_short(&of.scratch_words, &of, "scratch too short");
    try_short(&of.environment_words, &of, "slots too short");
}

int main(void)
{
    try_empty_text(NULL, "text NULL, length 0");
    try_empty_text(fenced(0), "text that may not be touched, length 0");
    try_empty_list(NULL, "list NULL, length 0");
    try_empty_list(fenced_list(0), "list that may not be touched, length 0");
    try_exact_buffers();
    try_lists();
    try_writes();
    try_find(1);
    try_find(3);
    try_find(PAUGMELN_LIST_RECORDS);
    try_find_in_empty_list(NULL, "nothing is found in NULL, length 0");
    try_find_in_empty_list(fenced_list(0), "nothing is found in a list that may not be touched, length 0");
    struct lent exact = fenced_lent(SLOTS);
    try_run(exact, "start and lines between fences");
    exact.environment = NULL;
    try_run(exact, "no slots, NULL");
    try_short_buffers();
    return wrong;
}
