/* Makes the request for memory of number REFUSE fail, counted from 1, where it comes from the program itself. It is loaded before the
   system's library; the file that REFUSED names is made when a request was refused. */
#define _GNU_SOURCE
#include <dlfcn.h>
#include <errno.h>
#include <fcntl.h>
#include <link.h>
#include <stdatomic.h>
#include <stdint.h>
#include <stdlib.h>
#include <unistd.h>

static void *(*real_malloc)(size_t);
static void *(*real_realloc)(void *, size_t);
static uintptr_t first, last;
static unsigned long number;
static atomic_ulong requests;

/* The first object that is told is the program. */
static int note(struct dl_phdr_info *info, size_t size, void *data) {
    for (int i = 0; i < info->dlpi_phnum; i++) {
        if (info->dlpi_phdr[i].p_type != PT_LOAD || !(info->dlpi_phdr[i].p_flags & PF_X)) continue;
        first = info->dlpi_addr + info->dlpi_phdr[i].p_vaddr;
        last = first + info->dlpi_phdr[i].p_memsz;
    }
    return 1;
}

__attribute__((constructor)) static void start(void) {
    const char *text = getenv("REFUSE");
    number = text ? strtoul(text, 0, 10) : 0;
    real_malloc = dlsym(RTLD_NEXT, "malloc");
    real_realloc = dlsym(RTLD_NEXT, "realloc");
    dl_iterate_phdr(note, 0);
}

static int refused(void *caller) {
    if ((uintptr_t)caller < first || (uintptr_t)caller >= last || atomic_fetch_add(&requests, 1) + 1 != number) return 0;
    int file = open(getenv("REFUSED"), O_WRONLY | O_CREAT, 0600);
    if (file >= 0) close(file);
    errno = ENOMEM;
    return 1;
}

void *malloc(size_t size) {
    if (!real_malloc) real_malloc = dlsym(RTLD_NEXT, "malloc");
    return refused(__builtin_return_address(0)) ? 0 : real_malloc(size);
}

void *realloc(void *old, size_t size) {
    if (!real_realloc) real_realloc = dlsym(RTLD_NEXT, "realloc");
    return refused(__builtin_return_address(0)) ? 0 : real_realloc(old, size);
}
