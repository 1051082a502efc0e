/* What the examples share: exit statuses, a rule file read, a thread with a deep stack, output that is seen to be written. */
#ifndef SUPPORT_H
#define SUPPORT_H

#include <errno.h>
#include <paugmeln.h>
#include <pthread.h>
#include <stdio.h>
#include <string.h>

/* Exit statuses. */
enum { ACCEPTED = 0, REFUSED = 1, NO_ANSWER = 2 };

/* A rule file. There is room for one character too many, so that a file that is too long is seen to be. */
struct rule_file {
    uint8_t text[PAUGMELN_TEXT_MOST + 1];
    size_t length;
};

static inline int no_answer(const char *program, const char *what, int why)
{
    fprintf(stderr, "%s: %s: %s\n", program, what, strerror(why));
    return NO_ANSWER;
}

/* Reads a rule file; other than 0 where that fails. A text that was cut short is no answer's text. */
static inline int read_rule_file(FILE *from, struct rule_file *file)
{
    errno = 0;
    file->length = fread(file->text, 1, sizeof file->text, from);
    return ferror(from) ? errno : 0;
}

/* Works on a thread whose stack has so many bytes; other than 0 where there is no such thread. */
static inline int on_stack(size_t bytes, void *(*work)(void *), void *argument)
{
    pthread_attr_t deep;
    pthread_t thread;
    int failed = pthread_attr_init(&deep);
    if (failed)
        return failed;
    failed = pthread_attr_setstacksize(&deep, bytes);
    if (!failed)
        failed = pthread_create(&thread, &deep, work, argument);
    pthread_attr_destroy(&deep);
    return failed ? failed : pthread_join(thread, NULL);
}

/* Other than 0 where something printed was not written. */
static inline int write_out(void)
{
    errno = 0;
    return fflush(stdout) != 0 || ferror(stdout) ? errno : 0;
}

#endif
