#include <stddef.h>
#include <stdint.h>

size_t stack_use(void (*call)(void));
