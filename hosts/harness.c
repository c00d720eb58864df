/* harness.c: the memory, rooms and printing that harness.h declares. */
#include "harness.h"

#include <stdio.h>
#include <stdlib.h>
#include <string.h>
#include <sys/mman.h>

enum { PAGE = 4096 };

char *fenced_area(size_t bytes)
{
    bytes = (bytes + PAGE - 1) / PAGE * PAGE;
    char *area = mmap(NULL, bytes + PAGE, PROT_READ | PROT_WRITE, MAP_PRIVATE | MAP_ANONYMOUS, -1, 0);
    if (area == MAP_FAILED || mprotect(area + bytes, PAGE, PROT_NONE) != 0) {
        puts("compare: no memory");
        exit(2);
    }
    return area + bytes;
}

void *put(char *end, const void *from, size_t bytes)
{
    return memcpy(end - bytes, from, bytes);
}

void fill_words(struct random *random, uint32_t *words, size_t count)
{
    for (size_t i = 0; i < count; i++)
        words[i] = any(random);
}

size_t choose_room(struct random *random, size_t needed, size_t most, bool between)
{
    switch (below(random, 5)) {
    case 0: return needed;
    case 1: return needed > 0 ? needed - 1 : 0;
    case 2: return between ? below(random, (uint32_t)needed + 1) : 0;
    case 3: return needed + below(random, 40);
    default: return most - below(random, 50);
    }
}

void print_rows(const char *what, const uint32_t *numbers, size_t len, size_t width)
{
    printf("%s, %lu numbers:\n", what, (unsigned long)len);
    for (size_t i = 0; i < len; i++)
        printf("%s%u%s", i % width == 0 ? "(" : ",", numbers[i],
               i + 1 == len || i % width == width - 1 ? ") " : "");
    puts("");
}

void print_seen(const char *function, const uint64_t *seen, int numbers, const char *meaning)
{
    printf("%-15s", function);
    for (int n = 0; n < numbers; n++)
        if (seen[n] > 0)
            printf("  %d:%lu", n, (unsigned long)seen[n]);
    printf("  (%s)\n", meaning);
}
