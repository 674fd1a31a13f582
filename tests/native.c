/* The C of the toolchain that a program calls, for a processor for which the toolchain links no program: what its libraries libc and os declare
 * of the heap and of errors, as its own archives for x86-64 have it. Nothing of it is proved; the contracts are the toolchain's. */
#include <errno.h>
#include <stdbool.h>
#include <stdlib.h>

struct tried {
    bool ok;
    void *at;
};

static char nothing;

/* bytes at an alignment that divides 16; of none, as many as the alignment, so that each answer is a block of its own */
struct tried rattle_alloc(size_t bytes, size_t alignment)
{
    void *at = malloc(bytes ? bytes : alignment);
    return (struct tried){at != NULL, at ? at : &nothing};
}

/* the block at `of`, made one of so many bytes; where that fails, it is as it was */
struct tried rattle_realloc(void *of, size_t kept, size_t bytes, size_t alignment)
{
    void *at = realloc(of, bytes ? bytes : alignment);
    (void)kept;
    return (struct tried){at != NULL, at ? at : &nothing};
}

void rattle_dealloc(void *at)
{
    free(at);
}

int rattle_errno(void)
{
    return errno;
}

void rattle_set_errno(int number)
{
    errno = number;
}
