// Refuses one demand for memory of the program that it is loaded into, for refused_memory.sh: the demand of the number in REFUSED, counted
// from 1. Where COUNTED names a file, the number of demands is kept there, as 8 bytes.
#include <fcntl.h>
#include <stdatomic.h>
#include <stdlib.h>
#include <sys/mman.h>
#include <unistd.h>

void *__libc_malloc(size_t size);

static atomic_long here;
static atomic_long *made = &here;
static long refused;

__attribute__((constructor)) static void begin(void) {
    const char *number = getenv("REFUSED"), *name = getenv("COUNTED");
    refused = number ? atol(number) : 0;
    int file = name ? open(name, O_RDWR | O_CREAT | O_TRUNC, 0644) : -1;
    if (file >= 0 && ftruncate(file, sizeof here) == 0) {
        void *at = mmap(NULL, sizeof here, PROT_READ | PROT_WRITE, MAP_SHARED, file, 0);
        if (at != MAP_FAILED)
            made = at;
        close(file);
    }
    atomic_store(made, 0);
}

void *malloc(size_t size) {
    if (atomic_fetch_add(made, 1) + 1 == refused)
        return NULL;
    return __libc_malloc(size);
}
