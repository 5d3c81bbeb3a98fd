/* Refuses one request for memory of a program that it is loaded into (LD_PRELOAD), the one of the number REFUSE_AT, counted from 1
   where the program begins. At the end it writes to the file REFUSE_REPORT how many requests there were. Needs glibc, whose own
   functions it calls, since a search for them (dlsym) would ask for memory itself. */
#include <errno.h>
#include <fcntl.h>
#include <stddef.h>
#include <stdlib.h>
#include <unistd.h>

extern void *__libc_malloc(size_t);
extern void *__libc_calloc(size_t, size_t);
extern void *__libc_realloc(void *, size_t);
extern void *__libc_memalign(size_t, size_t);

static unsigned long requests, refused;
static int is_counting;

/* Counts a request, and says whether it is the one to be refused. */
static int is_refused(void) {
    if (!is_counting || __atomic_add_fetch(&requests, 1, __ATOMIC_SEQ_CST) != refused) return 0;
    errno = ENOMEM;
    return 1;
}

void *malloc(size_t size) { return is_refused() ? NULL : __libc_malloc(size); }

void *calloc(size_t number, size_t size) { return is_refused() ? NULL : __libc_calloc(number, size); }

void *realloc(void *block, size_t size) { return is_refused() ? NULL : __libc_realloc(block, size); }

void *memalign(size_t alignment, size_t size) { return is_refused() ? NULL : __libc_memalign(alignment, size); }

void *aligned_alloc(size_t alignment, size_t size) { return memalign(alignment, size); }

int posix_memalign(void **block, size_t alignment, size_t size) {
    void *got = memalign(alignment, size);
    if (got == NULL) return ENOMEM;
    *block = got;
    return 0;
}

__attribute__((constructor)) static void begin(void) {
    const char *number = getenv("REFUSE_AT");
    refused = number ? strtoul(number, NULL, 10) : 0;
    is_counting = 1;
}

__attribute__((destructor)) static void report(void) {
    const char *path = getenv("REFUSE_REPORT");
    char digits[24];
    size_t at = sizeof digits;
    unsigned long left = requests;
    is_counting = 0;
    do digits[--at] = '0' + left % 10; while (left /= 10);
    int file = path ? open(path, O_WRONLY | O_CREAT | O_TRUNC, 0600) : -1;
    if (file < 0 || write(file, digits + at, sizeof digits - at) < 0) return;
    close(file);
}
