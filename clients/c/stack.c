/* Prints how many bytes of stack the judge uses, file by file: stack [--today YYYYMMDD] BOOK FILE...
 *
 * Each file is judged with nothing lent as today, and with --today once more with that day.
 *
 * The call is made on a stack of its own, painted before: from the lowest byte that lost its paint to the stack's top, all was used. The
 * frame of the function that makes the call counts too.
 */
#include "lend.h"
#include "srf_judge.h"

#include <stdbool.h>
#include <stdio.h>
#include <stdlib.h>
#include <string.h>
#include <ucontext.h>

enum { ROOM = 1 << 20, PAINT = 0xA5 };

static uint8_t stack[ROOM];
static uint8_t report[SRF_REPORT_SIZE(SRF_MOST_RECORDS * SRF_RECORD_SIZE)];
static struct space book, file, today;
static uint64_t answer;

static void judge(void)
{
    answer = srf_judge(file.bytes, file.size, book.bytes, book.size, report, sizeof report);
}

static void judge_with_today(void)
{
    answer = srf_judge_with(file.bytes, file.size, book.bytes, book.size, today.bytes, today.size, report, sizeof report);
}

static size_t used(void)
{
    size_t clean = 0;

    while (clean < ROOM && stack[clean] == PAINT)
        clean++;
    return ROOM - clean;
}

static void run_on_painted_stack(void (*call)(void))
{
    static ucontext_t here, there;

    memset(stack, PAINT, ROOM);
    if (getcontext(&there) != 0)
        abort();
    there.uc_stack.ss_sp = stack;
    there.uc_stack.ss_size = ROOM;
    there.uc_link = &here;
    makecontext(&there, call, 0);
    if (swapcontext(&here, &there) != 0)
        abort();
}

static void lend_or_end(const char *(*lender)(const char *, struct space *), const char *what, struct space *space)
{
    const char *fault = lender(what, space);

    if (fault != NULL) {
        fprintf(stderr, "stack: %s: %s\n", what, fault);
        exit(3);
    }
}

int main(int argc, char **argv)
{
    bool dated = argc > 2 && strcmp(argv[1], "--today") == 0;
    int first = dated ? 3 : 1;

    if (argc < first + 2) {
        fputs("usage: stack [--today YYYYMMDD] BOOK FILE...\n", stderr);
        return 3;
    }
    if (dated)
        lend_or_end(lend_today, argv[2], &today);
    lend_or_end(lend, argv[first], &book);
    for (int i = first + 1; i < argc; i++) {
        lend_or_end(lend, argv[i], &file);
        run_on_painted_stack(judge);
        printf("%zu bytes, answer %llu: %s\n", used(), (unsigned long long)answer, argv[i]);
        if (!dated)
            continue;
        run_on_painted_stack(judge_with_today);
        printf("%zu bytes, answer %llu, today %s: %s\n", used(), (unsigned long long)answer, argv[2], argv[i]);
    }
    return 0;
}
