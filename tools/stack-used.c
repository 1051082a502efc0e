/* The real stack that a call takes for the rule file on standard input, in bytes, with what a thread takes itself: runs it on a
 * stack of fresh pages and looks which of them it touched. Behind it the number that was answered.
 *
 *     stack-used check      paugmeln_check
 *     stack-used iterate    paugmeln_iterate, with no input; the file's one channel is a Bool, false before
 */
#define _GNU_SOURCE
#include <paugmeln.h>
#include <pthread.h>
#include <stdio.h>
#include <stdlib.h>
#include <string.h>
#include <sys/mman.h>
#include <unistd.h>

/* Lent for the measurement, far above what is needed. */
#define LENT_BYTES ((size_t)1 << 30)

static uint8_t text[PAUGMELN_TEXT_MOST + 1];
static size_t length;
static struct paugmeln_answer answer;

static void *check(void *unused)
{
    static struct paugmeln_instance list[PAUGMELN_LIST_RECORDS];
    answer = paugmeln_check(text, length, PAUGMELN_CELLS_MOST, PAUGMELN_SLOTS_MOST, PAUGMELN_CALLS_MOST, list,
                            PAUGMELN_LIST_RECORDS);
    return unused;
}

static void *iterate(void *unused)
{
    static uint32_t state[PAUGMELN_STATE_WORDS(PAUGMELN_CELLS_MOST)], scratch[PAUGMELN_SCRATCH_WORDS];
    static uint32_t slots[PAUGMELN_ENVIRONMENT_WORDS(PAUGMELN_SLOTS_MOST)];
    static const uint8_t line[] = {'0', '5', '\n'};
    /* One cell is used: a Bool. */
    state[0] = 1;
    state[PAUGMELN_CELL_AT(0)] = 1;
    answer = paugmeln_iterate(text, length, PAUGMELN_CELLS_MOST, PAUGMELN_SLOTS_MOST, PAUGMELN_CALLS_MOST, state,
                              sizeof state / sizeof *state, scratch, PAUGMELN_SCRATCH_WORDS, slots, PAUGMELN_SLOTS_MOST, line,
                              sizeof line);
    return unused;
}

static void require(int holds, const char *what)
{
    if (!holds) {
        fprintf(stderr, "stack-used: no %s\n", what);
        exit(1);
    }
}

/* Pages of which none was touched yet, and none is touched for another's sake. */
static uint8_t *fresh_pages(void)
{
    int flags = MAP_PRIVATE | MAP_ANONYMOUS | MAP_NORESERVE;
    uint8_t *pages = mmap(NULL, LENT_BYTES, PROT_READ | PROT_WRITE, flags, -1, 0);
    require(pages != MAP_FAILED, "memory");
    madvise(pages, LENT_BYTES, MADV_NOHUGEPAGE);
    return pages;
}

static void run_on(uint8_t *stack, void *(*call)(void *))
{
    pthread_attr_t attributes;
    pthread_t thread;
    require(pthread_attr_init(&attributes) == 0, "attributes");
    require(pthread_attr_setstack(&attributes, stack, LENT_BYTES) == 0, "stack");
    require(pthread_create(&thread, &attributes, call, NULL) == 0, "thread");
    pthread_join(thread, NULL);
}

/* From the lowest touched page to the end: a stack grows down. */
static size_t used(uint8_t *stack)
{
    size_t page = (size_t)sysconf(_SC_PAGESIZE), pages = LENT_BYTES / page, untouched = 0;
    unsigned char *touched = malloc(pages);
    require(touched != NULL && mincore(stack, LENT_BYTES, touched) == 0, "list of pages");
    while (untouched < pages && !(touched[untouched] & 1))
        untouched++;
    free(touched);
    return (pages - untouched) * page;
}

int main(int count, char **words)
{
    int iterates = count == 2 && strcmp(words[1], "iterate") == 0;
    require(iterates || (count == 2 && strcmp(words[1], "check") == 0), "call named: check or iterate");
    length = fread(text, 1, sizeof text, stdin);
    uint8_t *stack = fresh_pages();
    run_on(stack, iterates ? iterate : check);
    printf("%zu %u\n", used(stack), answer.number);
    return 0;
}
