/* The Rust's calls of these functions, which run.sh leads here, go to the C library itself. AddressSanitizer's versions would check what the Rust does, which is
 * not what is tested, and libFuzzer would take its comparisons for those of the calls. */
#define _GNU_SOURCE
#include <dlfcn.h>
#include <stddef.h>

static int (*compare)(const void *, const void *, size_t);
static void *(*copy)(void *, const void *, size_t);
static void *(*move)(void *, const void *, size_t);
static void *(*set)(void *, int, size_t);

__attribute__((constructor)) static void find(void) {
    compare = (int (*)(const void *, const void *, size_t))dlsym(RTLD_NEXT, "memcmp");
    copy = (void *(*)(void *, const void *, size_t))dlsym(RTLD_NEXT, "memcpy");
    move = (void *(*)(void *, const void *, size_t))dlsym(RTLD_NEXT, "memmove");
    set = (void *(*)(void *, int, size_t))dlsym(RTLD_NEXT, "memset");
}

int plain_memcmp(const void *one, const void *other, size_t size) { return compare(one, other, size); }
int plain_bcmp(const void *one, const void *other, size_t size) { return compare(one, other, size); }
void *plain_memcpy(void *to, const void *from, size_t size) { return copy(to, from, size); }
void *plain_memmove(void *to, const void *from, size_t size) { return move(to, from, size); }
void *plain_memset(void *to, int byte, size_t size) { return set(to, byte, size); }
