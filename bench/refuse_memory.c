// Loaded before the C library (LD_PRELOAD), it refuses one request for memory of a program: the one with the number REFUSE_AT, counted from 1.
// Only the program's own requests count, and not those that a library makes. REFUSE_REPORT names a file that gets the number of all requests when
// the program ends. With REFUSE_ON_SIGNAL they are counted from a signal USR1 on, for a server that has started.
#define _GNU_SOURCE
#include <dlfcn.h>
#include <errno.h>
#include <fcntl.h>
#include <link.h>
#include <signal.h>
#include <stdatomic.h>
#include <stdint.h>
#include <stdio.h>
#include <stdlib.h>
#include <string.h>
#include <unistd.h>

static void *(*real_malloc)(size_t);
static void *(*real_calloc)(size_t, size_t);
static void *(*real_realloc)(void *, size_t);
static void *(*real_aligned_alloc)(size_t, size_t);
static int (*real_posix_memalign)(void **, size_t, size_t);
static atomic_long requests;
static long refuse_at = -1;
static char first_room[4096];
static size_t first_used;
// Where the program's own code stands.
static uintptr_t code_from = UINTPTR_MAX, code_to;

// The first object is the program itself.
static int note_code(struct dl_phdr_info *object, size_t size, void *unused) {
    (void)size, (void)unused;
    for (int i = 0; i < object->dlpi_phnum; i++) {
        const ElfW(Phdr) *part = &object->dlpi_phdr[i];
        if (part->p_type != PT_LOAD || !(part->p_flags & PF_X)) continue;
        uintptr_t from = object->dlpi_addr + part->p_vaddr, to = from + part->p_memsz;
        if (from < code_from) code_from = from;
        if (to > code_to) code_to = to;
    }
    return 1;
}

static void begin_again(int signal_number) {
    (void)signal_number;
    atomic_store(&requests, 0);
}

__attribute__((constructor)) static void load(void) {
    real_calloc = dlsym(RTLD_NEXT, "calloc");
    real_malloc = dlsym(RTLD_NEXT, "malloc");
    real_realloc = dlsym(RTLD_NEXT, "realloc");
    real_aligned_alloc = dlsym(RTLD_NEXT, "aligned_alloc");
    real_posix_memalign = dlsym(RTLD_NEXT, "posix_memalign");
    dl_iterate_phdr(note_code, NULL);
    const char *at = getenv("REFUSE_AT");
    refuse_at = at ? atol(at) : 0;
    if (getenv("REFUSE_ON_SIGNAL")) {
        struct sigaction action = {.sa_handler = begin_again, .sa_flags = SA_RESTART};
        sigaction(SIGUSR1, &action, NULL);
        atomic_store(&requests, 1L << 60);
    } else {
        atomic_store(&requests, 0);
    }
}

__attribute__((destructor)) static void report(void) {
    const char *name = getenv("REFUSE_REPORT");
    long count = atomic_load(&requests);
    refuse_at = 0;
    if (!name) return;
    int file = open(name, O_WRONLY | O_CREAT | O_TRUNC, 0600);
    if (file < 0) return;
    char line[32];
    int length = snprintf(line, sizeof line, "%ld\n", count);
    if (write(file, line, length) != length) _exit(99);
    close(file);
}

// Whether the request from this place is the one that is refused. Before the library is loaded nothing is.
static int refused(void *from) {
    if (refuse_at < 0 || (uintptr_t)from < code_from || (uintptr_t)from >= code_to) return 0;
    if (atomic_fetch_add(&requests, 1) + 1 != refuse_at) return 0;
    errno = ENOMEM;
    return 1;
}

void *malloc(size_t size) {
    if (!real_malloc) load();
    return refused(__builtin_return_address(0)) ? NULL : real_malloc(size);
}

// dlsym asks for memory itself, before there is a function to ask.
void *calloc(size_t count, size_t size) {
    if (!real_calloc) {
        size_t wanted = (count * size + 15) & ~(size_t)15;
        if (first_used + wanted > sizeof first_room) return NULL;
        void *found = first_room + first_used;
        first_used += wanted;
        return found;
    }
    return refused(__builtin_return_address(0)) ? NULL : real_calloc(count, size);
}

void *realloc(void *old, size_t size) {
    if (!real_realloc) load();
    return refused(__builtin_return_address(0)) ? NULL : real_realloc(old, size);
}

void *aligned_alloc(size_t align, size_t size) {
    if (!real_aligned_alloc) load();
    return refused(__builtin_return_address(0)) ? NULL : real_aligned_alloc(align, size);
}

int posix_memalign(void **to, size_t align, size_t size) {
    if (!real_posix_memalign) load();
    return refused(__builtin_return_address(0)) ? ENOMEM : real_posix_memalign(to, align, size);
}
