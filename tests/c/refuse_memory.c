/* Refuses one request for memory of the program that it is loaded into by LD_PRELOAD: the one whose number, counted
 * from 1, is in the variable REFUSED. For glibc.
 *
 *   cc -shared -fPIC -O2 tests/c/refuse_memory.c -o refuse_memory.so
 *   LD_PRELOAD=./refuse_memory.so REFUSED=3 crates/vectors/out/vectors half int even 464 */
#include <stdlib.h>

void *__libc_malloc(size_t size);
void *__libc_realloc(void *block, size_t size);

static long refused;
static long requests;

/* What the loader asks for before this does not count. */
__attribute__((constructor)) static void begin(void) {
    const char *number = getenv("REFUSED");
    requests = 0;
    refused = number ? atol(number) : 0;
}

void *malloc(size_t size) { return ++requests == refused ? NULL : __libc_malloc(size); }

void *realloc(void *block, size_t size) { return ++requests == refused ? NULL : __libc_realloc(block, size); }
