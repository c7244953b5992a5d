/* For LD_PRELOAD: standard input gives READ_BYTES bytes, and then a read of it fails by EIO. */
#define _GNU_SOURCE
#include <errno.h>
#include <stdlib.h>
#include <sys/syscall.h>
#include <unistd.h>

ssize_t read(int descriptor, void *bytes, size_t length) {
    static size_t given;
    const char *most = getenv("READ_BYTES");
    size_t left = most == NULL ? 0 : (size_t)strtoul(most, NULL, 10);
    long got;

    left = given < left ? left - given : 0;
    if (descriptor == STDIN_FILENO && left == 0) {
        errno = EIO;
        return -1;
    }
    if (descriptor == STDIN_FILENO && length > left) {
        length = left;
    }
    got = syscall(SYS_read, descriptor, bytes, length);
    if (descriptor == STDIN_FILENO && got > 0) {
        given += (size_t)got;
    }
    return got;
}
