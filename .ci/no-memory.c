// Preloaded, makes the program's allocation fail whose number, from 1, is the variable FAILS. It then writes a byte to
// descriptor 3.
#define _GNU_SOURCE
#include <dlfcn.h>
#include <stdbool.h>
#include <stdlib.h>
#include <unistd.h>

static bool fails(void)
{
    static long number;
    const char *wanted = getenv("FAILS");

    return wanted && ++number == atol(wanted) && write(3, "", 1) == 1;
}

void *malloc(size_t size)
{
    void *(*next)(size_t);

    *(void **)&next = dlsym(RTLD_NEXT, "malloc");
    return fails() ? NULL : next(size);
}

void *realloc(void *memory, size_t size)
{
    void *(*next)(void *, size_t);

    *(void **)&next = dlsym(RTLD_NEXT, "realloc");
    return fails() ? NULL : next(memory, size);
}
