// Memory that is refused: built as a shared library and loaded before a program, it counts the program's requests and
// answers that of the number in REFUSE, from 1, with nothing; with REFUSE_ON also all that come behind it. Where it does
// so, it makes the file that REFUSED names.
#define _GNU_SOURCE
#include <dlfcn.h>
#include <fcntl.h>
#include <stdatomic.h>
#include <stdlib.h>
#include <unistd.h>

static atomic_ulong requests;
static unsigned long refuse;
static int refuse_on;
static const char *refused;

__attribute__((constructor)) static void begin(void) {
    const char *number = getenv("REFUSE");
    refused = getenv("REFUSED");
    refuse_on = getenv("REFUSE_ON") != NULL;
    atomic_store(&requests, 0);
    refuse = number ? strtoul(number, NULL, 10) : 0;
}

static int is_refused(void) {
    unsigned long number = atomic_fetch_add(&requests, 1) + 1;
    if (!refuse || (refuse_on ? number < refuse : number != refuse)) return 0;
    if (refused) close(open(refused, O_CREAT | O_WRONLY, 0600));
    return 1;
}

void *malloc(size_t size) {
    static void *(*next)(size_t);
    if (!next) next = (void *(*)(size_t))dlsym(RTLD_NEXT, "malloc");
    return is_refused() ? NULL : next(size);
}

void *realloc(void *place, size_t size) {
    static void *(*next)(void *, size_t);
    if (!next) next = (void *(*)(void *, size_t))dlsym(RTLD_NEXT, "realloc");
    return is_refused() ? NULL : next(place, size);
}
