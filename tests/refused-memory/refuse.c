/* Preloaded before the C library: refuses one request for memory, or all from one on.
 *
 *   REFUSE_AT     the number of the request to refuse, from 1; unset or 0: none
 *   REFUSE_MORE   set: each later request is refused too
 *   REFUSE_MARK   a file that a refusal makes
 *
 * Requests are counted from the start of the program, after those of the loader. */
#include <errno.h>
#include <fcntl.h>
#include <stddef.h>
#include <stdlib.h>
#include <sys/mman.h>
#include <sys/syscall.h>
#include <unistd.h>

extern void *__libc_malloc(size_t);
extern void *__libc_calloc(size_t, size_t);
extern void *__libc_realloc(void *, size_t);
extern void *__libc_memalign(size_t, size_t);

static unsigned long refuse_at, met;
static int counts, refuses_more;
static const char *mark;

__attribute__((constructor)) static void start(void) {
    const char *at = getenv("REFUSE_AT");
    mark = getenv("REFUSE_MARK");
    refuses_more = getenv("REFUSE_MORE") != NULL;
    refuse_at = at ? strtoul(at, NULL, 10) : 0;
    counts = 1;
}

static int refused(void) {
    if (!counts || refuse_at == 0)
        return 0;
    met++;
    if (met < refuse_at || (met > refuse_at && !refuses_more))
        return 0;
    if (met == refuse_at && mark) {
        int file = open(mark, O_WRONLY | O_CREAT, 0600);
        if (file >= 0)
            close(file);
    }
    errno = ENOMEM;
    return 1;
}

void *malloc(size_t size) {
    return refused() ? NULL : __libc_malloc(size);
}

void *calloc(size_t count, size_t size) {
    return refused() ? NULL : __libc_calloc(count, size);
}

void *realloc(void *old, size_t size) {
    return refused() ? NULL : __libc_realloc(old, size);
}

void *memalign(size_t align, size_t size) {
    return refused() ? NULL : __libc_memalign(align, size);
}

void *aligned_alloc(size_t align, size_t size) {
    return refused() ? NULL : __libc_memalign(align, size);
}

int posix_memalign(void **out, size_t align, size_t size) {
    void *room = refused() ? NULL : __libc_memalign(align, size);
    if (room == NULL)
        return ENOMEM;
    *out = room;
    return 0;
}

/* The program's own maps; those that the C library makes for malloc don't come here. */
void *mmap(void *at, size_t size, int access, int flags, int file, off_t from) {
    if ((flags & MAP_ANONYMOUS) && refused())
        return MAP_FAILED;
    return (void *)syscall(SYS_mmap, at, size, access, flags, file, from);
}
