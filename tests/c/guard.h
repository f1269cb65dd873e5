/* Memory with a page before it and a page behind it that may not be touched: the processor stops a program that does, also in code which
   no sanitizer sees, as that of the library. */
#ifndef GUARD_H
#define GUARD_H

#include <stddef.h>
#include <stdint.h>

#ifdef __cplusplus
extern "C" {
#endif

/* A whole number of pages, at least `size` bytes of them; `*length` is how many they are. */
uint8_t *guarded_pages(size_t size, size_t *length);

/* Keeps the pages from being written, or lets them be written again. */
void guarded_pages_writable(uint8_t *pages, size_t length, int writable);

/* For programs that are compiled with guarded_malloc.h: each block ends where a guard page begins. Blocks are never given back. */
void *guarded_malloc(size_t size);
void guarded_free(void *block);

#ifdef __cplusplus
}
#endif

#endif
