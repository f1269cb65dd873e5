#define _DEFAULT_SOURCE
#include <stdio.h>
#include <stdlib.h>
#include <sys/mman.h>
#include "guard.h"

enum { PAGE = 4096 };

static void want(int holds, const char *what)
{
    if (!holds) {
        perror(what);
        exit(2);
    }
}

uint8_t *guarded_pages(size_t size, size_t *length)
{
    *length = (size + PAGE - 1) / PAGE * PAGE;
    void *all = mmap(NULL, *length + 2 * PAGE, PROT_NONE, MAP_PRIVATE | MAP_ANONYMOUS, -1, 0);
    want(all != MAP_FAILED, "mmap");
    guarded_pages_writable((uint8_t *)all + PAGE, *length, 1);
    return (uint8_t *)all + PAGE;
}

void guarded_pages_writable(uint8_t *pages, size_t length, int writable)
{
    want(mprotect(pages, length, writable ? PROT_READ | PROT_WRITE : PROT_READ) == 0, "mprotect");
}

void *guarded_malloc(size_t size)
{
    size_t length;
    uint8_t *pages = guarded_pages(size, &length);
    return pages + length - size;
}

void guarded_free(void *block)
{
    (void)block;
}
