/* Checks the rule file on standard input against the largest board, as `./check` does, and lists its instances on
 * standard error.
 *
 *     tools/build library
 *     cc -I include examples/c/check.c target/staticlib/libpaugmeln.a -lpthread -o check-rules
 *     ./check-rules < examples/listing3.rules
 */
#include "support.h"

/* What one check is lent, and its answer. */
struct checking {
    struct rule_file file;
    struct paugmeln_instance list[PAUGMELN_LIST_RECORDS];
    struct paugmeln_answer answer;
};

static void *check(void *lent)
{
    struct checking *of = lent;
    of->answer = paugmeln_check(of->file.text, of->file.length, PAUGMELN_CELLS_MOST, PAUGMELN_SLOTS_MOST,
                                PAUGMELN_CALLS_MOST, of->list, PAUGMELN_LIST_RECORDS);
    return NULL;
}

static void print_answer(const struct paugmeln_answer *v)
{
    if (v->number == 0)
        printf("ACCEPT %u %u %u\n", v->heap, v->environment, v->stack);
    else
        printf("REFUSE %u %u %u %u %u\n", v->number, v->frame, v->heap, v->environment, v->stack);
}

static void print_instance(const struct paugmeln_instance *record)
{
    fprintf(stderr, "function %u at", record->function);
    for (int i = 0; i < PAUGMELN_RECORD_SIZES && record->sizes[i] != 0; i++)
        fprintf(stderr, " %u", record->sizes[i]);
    fprintf(stderr, ": environment %u, heap %u, stack %u\n", record->environment, record->heap, record->stack);
}

static int is_empty(const struct paugmeln_instance *record)
{
    static const struct paugmeln_instance empty;
    return memcmp(record, &empty, sizeof empty) == 0;
}

/* The list up to its last record that is not empty. */
static void print_instances(const struct paugmeln_instance *list)
{
    size_t used = PAUGMELN_LIST_RECORDS;
    while (used > 0 && is_empty(&list[used - 1]))
        used--;
    for (size_t at = 0; at < used; at++)
        print_instance(&list[at]);
}

int main(void)
{
    static struct checking of;
    int failed = read_rule_file(stdin, &of.file);
    if (failed)
        return no_answer("check", "standard input", failed);
    failed = on_stack(PAUGMELN_STACK_BYTES, check, &of);
    if (failed)
        return no_answer("check", "no thread with a deep stack", failed);
    print_answer(&of.answer);
    failed = write_out();
    if (failed)
        return no_answer("check", "standard output", failed);
    print_instances(of.list);
    return of.answer.number == 0 ? ACCEPTED : REFUSED;
}
