// Put before the C library (LD_PRELOAD), makes awkward reads and writes of ordinary ones: each moves at most SHORT bytes, and from a file, descriptor 3 on, only FAILS
// bytes can be read before a read fails.
#define _GNU_SOURCE
#include <errno.h>
#include <stdlib.h>
#include <sys/syscall.h>
#include <unistd.h>

static size_t limit(const char *name, size_t otherwise) {
    const char *text = getenv(name);
    return text ? strtoul(text, NULL, 10) : otherwise;
}

ssize_t read(int file, void *to, size_t count) {
    static size_t done;
    size_t most = limit("SHORT", count), fails = limit("FAILS", (size_t)-1);
    if (count > most) count = most;
    if (file > 2) {
        if (done >= fails) return errno = EIO, -1;
        if (count > fails - done) count = fails - done;
    }
    ssize_t n = syscall(SYS_read, file, to, count);
    if (file > 2 && n > 0) done += n;
    return n;
}

ssize_t write(int file, const void *from, size_t count) {
    size_t most = limit("SHORT", count);
    return syscall(SYS_write, file, from, count > most ? most : count);
}
