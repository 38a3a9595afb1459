/* Preloaded into a program, refuses one request for memory: the one whose number REFUSE_REQUEST gives, counted from 1. It then
   makes the file that REFUSE_SAID names. A program of the kit asks for memory by malloc and realloc alone. */
#define _GNU_SOURCE
#include <dlfcn.h>
#include <fcntl.h>
#include <stdatomic.h>
#include <stdlib.h>
#include <unistd.h>

static atomic_long requests;
static long refused; /* 0: none; so it is before the program starts */
static const char *said;
static void *(*next_malloc)(size_t);
static void *(*next_realloc)(void *, size_t);

static void find(void) {
    next_malloc = dlsym(RTLD_NEXT, "malloc");
    next_realloc = dlsym(RTLD_NEXT, "realloc");
}

__attribute__((constructor)) static void begin(void) {
    const char *number = getenv("REFUSE_REQUEST");
    find();
    said = getenv("REFUSE_SAID");
    refused = number ? atol(number) : 0;
}

static int is_refused(void) {
    if (!refused || atomic_fetch_add(&requests, 1) + 1 != refused)
        return 0;
    int file = said ? open(said, O_WRONLY | O_CREAT, 0600) : -1;
    if (file >= 0)
        close(file);
    return 1;
}

void *malloc(size_t size) {
    if (!next_malloc)
        find();
    return is_refused() ? NULL : next_malloc(size);
}

void *realloc(void *block, size_t size) {
    if (!next_realloc)
        find();
    return is_refused() ? NULL : next_realloc(block, size);
}
