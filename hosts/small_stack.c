/* small_stack.c: the stack and the notes that small_stack.h declares.
 *
 * The stack lies above a page that cannot be touched. It is filled with a
 * pattern first, so that the most that was used can be told.
 */
#include "small_stack.h"

#include <pthread.h>
#include <stdio.h>
#include <stdlib.h>
#include <string.h>
#include <sys/mman.h>

enum { STACK = 1 << 20, PAGE = 4096, PATTERN = 0xA5 };

static char *make_stack(void)
{
    char *area = mmap(NULL, STACK + PAGE, PROT_READ | PROT_WRITE, MAP_PRIVATE | MAP_ANONYMOUS, -1, 0);
    if (area == MAP_FAILED || mprotect(area, PAGE, PROT_NONE) != 0) {
        puts("stress: no memory for a stack");
        exit(2);
    }
    return area + PAGE;
}

size_t on_small_stack(void *(*run)(void *), void *job)
{
    static char *stack;
    pthread_attr_t attributes;
    pthread_t thread;
    size_t unused = 0;
    if (!stack)
        stack = make_stack();
    memset(stack, PATTERN, STACK);
    if (pthread_attr_init(&attributes) != 0 || pthread_attr_setstack(&attributes, stack, STACK) != 0 ||
        pthread_create(&thread, &attributes, run, job) != 0 || pthread_join(thread, NULL) != 0) {
        puts("stress: no thread");
        exit(2);
    }
    while (unused < STACK && (unsigned char)stack[unused] == PATTERN)
        unused++;
    return STACK - unused;
}

static size_t most;
static char most_case[64];
static int differences;

void note(const char *what, bool same, size_t used)
{
    if (used > most)
        snprintf(most_case, sizeof most_case, "%s", what);
    most = used > most ? used : most;
    differences += !same;
}

int print_noted(void)
{
    printf("stress: %d different; most stack used %lu KiB of 1,024, by: %s\n", differences,
           (unsigned long)(most / 1024), most_case);
    return differences != 0;
}
