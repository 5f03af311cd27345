/* Pages between guard pages. */
#define _GNU_SOURCE
#include "fuzz.h"
#include <stdio.h>
#include <stdlib.h>
#include <sys/mman.h>
#include <unistd.h>

static void *mapped(void *result) {
    if (result == MAP_FAILED) {
        perror("mmap");
        exit(2);
    }
    return result;
}

/* The two views are mapped once, so that no call needs mprotect. */
struct page page_new(bool read_only) {
    int file = memfd_create("page", 0);
    if (file < 0 || ftruncate(file, PAGE) != 0) {
        perror("memfd_create");
        exit(2);
    }
    uint8_t *guarded = mapped(mmap(NULL, 3 * PAGE, PROT_NONE, MAP_PRIVATE | MAP_ANONYMOUS, -1, 0));
    int rights = read_only ? PROT_READ : PROT_READ | PROT_WRITE;
    struct page page;
    page.seen = mapped(mmap(guarded + PAGE, PAGE, rights, MAP_SHARED | MAP_FIXED, file, 0));
    page.written = mapped(mmap(NULL, PAGE, PROT_READ | PROT_WRITE, MAP_SHARED, file, 0));
    close(file);
    return page;
}

size_t page_offset(size_t length, bool at_start) { return at_start ? 0 : PAGE - length; }
