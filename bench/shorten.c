/* A library to be loaded before a program (LD_PRELOAD): it shortens the file SHORTEN after the first read of more than one byte of it. */
#define _GNU_SOURCE
#include <dlfcn.h>
#include <stdlib.h>
#include <sys/stat.h>
#include <unistd.h>

ssize_t read(int file, void *to, size_t count) {
    static ssize_t (*real)(int, void *, size_t);
    static int is_done;
    struct stat here, there;
    if (!real) real = dlsym(RTLD_NEXT, "read");
    ssize_t got = real(file, to, count);
    if (got > 1 && !is_done && fstat(file, &here) == 0 && stat(getenv("SHORTEN"), &there) == 0 && here.st_ino == there.st_ino) {
        is_done = truncate(getenv("SHORTEN"), lseek(file, 0, SEEK_CUR)) == 0;
    }
    return got;
}
