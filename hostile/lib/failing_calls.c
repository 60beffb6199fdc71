// Stands in front of the C library of a program: counts its allocations, its reads of the standard input, its writes to the
// standard output and its threads, has chosen ones of them fail, and cuts reads and writes into pieces. `program.py` builds it.
//
// The variable FAILING_CALLS says what is chosen: the file of the counts, a kind (allocation, read, write, thread or none), the
// numbers of the first and of the last call of that kind that fail (from 1), the error that they fail with, and the most bytes
// of one read and of one write (0: no bound).
#define _GNU_SOURCE
#include <dlfcn.h>
#include <errno.h>
#include <fcntl.h>
#include <pthread.h>
#include <stdio.h>
#include <stdlib.h>
#include <string.h>
#include <sys/mman.h>
#include <sys/syscall.h>
#include <sys/uio.h>
#include <unistd.h>

extern void *__libc_malloc(size_t), *__libc_calloc(size_t, size_t), *__libc_realloc(void *, size_t), *__libc_memalign(size_t, size_t);

// In the order in which `program.py` reads them. `threads` are those that were made, `failed` the calls that were made to fail.
struct counts { long allocations, reads, writes, starts, threads, failed; };

static struct counts *counts;
static char chosen[16];
static long first, last, error, read_piece, write_piece;
static int (*start)(pthread_t *, const pthread_attr_t *, void *(*)(void *), void *);

__attribute__((constructor)) static void choose(void) {
    const char *choice = getenv("FAILING_CALLS");
    char file[4096];
    *(void **)&start = dlsym(RTLD_NEXT, "pthread_create");
    if (!choice || sscanf(choice, "%4095s %15s %ld %ld %ld %ld %ld", file, chosen, &first, &last, &error, &read_piece, &write_piece) != 7)
        return;
    int fd = open(file, O_RDWR);
    if (fd < 0) return;
    void *at = mmap(0, sizeof *counts, PROT_READ | PROT_WRITE, MAP_SHARED, fd, 0);
    close(fd);
    if (at != MAP_FAILED) counts = at;
}

// Counts a call, and says whether it is to fail.
static int fails(const char *kind, long *count) {
    long number = __atomic_add_fetch(count, 1, __ATOMIC_SEQ_CST);
    if (strcmp(kind, chosen) || number < first || number > last) return 0;
    __atomic_add_fetch(&counts->failed, 1, __ATOMIC_SEQ_CST);
    errno = error;
    return 1;
}

static int is_refused(void) { return counts && fails("allocation", &counts->allocations); }

void *malloc(size_t n) { return is_refused() ? 0 : __libc_malloc(n); }
void *calloc(size_t n, size_t m) { return is_refused() ? 0 : __libc_calloc(n, m); }
void *realloc(void *p, size_t n) { return is_refused() ? 0 : __libc_realloc(p, n); }
void *aligned_alloc(size_t a, size_t n) { return is_refused() ? 0 : __libc_memalign(a, n); }
int posix_memalign(void **p, size_t a, size_t n) {
    void *at = is_refused() ? 0 : __libc_memalign(a, n);
    if (!at) return ENOMEM;
    *p = at;
    return 0;
}

ssize_t read(int fd, void *to, size_t n) {
    if (fd == 0 && counts) {
        if (fails("read", &counts->reads)) return -1;
        if (read_piece && n > (size_t)read_piece) n = read_piece;
    }
    return syscall(SYS_read, fd, to, n);
}

ssize_t write(int fd, const void *from, size_t n) {
    if (fd == 1 && counts) {
        if (fails("write", &counts->writes)) return -1;
        if (write_piece && n > (size_t)write_piece) n = write_piece;
    }
    return syscall(SYS_write, fd, from, n);
}

ssize_t __write(int fd, const void *from, size_t n) { return write(fd, from, n); }

// Where writes are cut into pieces, one part is written at most.
ssize_t writev(int fd, const struct iovec *parts, int n) {
    if (fd == 1 && counts && write_piece && n > 0) return write(fd, parts[0].iov_base, parts[0].iov_len);
    if (fd == 1 && counts && fails("write", &counts->writes)) return -1;
    return syscall(SYS_writev, fd, parts, n);
}

int pthread_create(pthread_t *to, const pthread_attr_t *attributes, void *(*body)(void *), void *argument) {
    if (!counts) return start(to, attributes, body, argument);
    if (fails("thread", &counts->starts)) return EAGAIN;
    int failed = start(to, attributes, body, argument);
    if (!failed) __atomic_add_fetch(&counts->threads, 1, __ATOMIC_SEQ_CST);
    return failed;
}
