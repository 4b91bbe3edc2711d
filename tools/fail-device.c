/* Lets standard input or standard output fail: the read of the number in FAIL_READ and each after it, the write of the number in FAIL_WRITE and each
   after it, counted from 1; 0 or nothing: none. Each of them moves at most PIECE bytes.

       cc -shared -fPIC -O2 -o fail-device.so tools/fail-device.c
       FAIL_READ=3 PIECE=7 LD_PRELOAD=./fail-device.so PROGRAM ..
*/
#define _GNU_SOURCE
#include <errno.h>
#include <stdlib.h>
#include <sys/syscall.h>
#include <unistd.h>

static unsigned long number_of(const char *name) {
    const char *number = getenv(name);
    return number ? strtoul(number, NULL, 10) : 0;
}

/* Whether this is the call that fails, or one after it. */
static int fails(const char *name, unsigned long *calls) {
    unsigned long first = number_of(name);
    return first && __atomic_add_fetch(calls, 1, __ATOMIC_SEQ_CST) >= first;
}

static size_t piece_of(size_t size) {
    size_t piece = number_of("PIECE");
    return piece && piece < size ? piece : size;
}

ssize_t read(int file, void *bytes, size_t size) {
    static unsigned long reads;
    if (file != STDIN_FILENO) {
        return syscall(SYS_read, file, bytes, size);
    }
    if (fails("FAIL_READ", &reads)) {
        errno = EIO;
        return -1;
    }
    return syscall(SYS_read, file, bytes, piece_of(size));
}

ssize_t write(int file, const void *bytes, size_t size) {
    static unsigned long writes;
    if (file != STDOUT_FILENO) {
        return syscall(SYS_write, file, bytes, size);
    }
    if (fails("FAIL_WRITE", &writes)) {
        errno = EIO;
        return -1;
    }
    return syscall(SYS_write, file, bytes, piece_of(size));
}
