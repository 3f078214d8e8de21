/* Texts of files. */
#ifndef TEXTS_H
#define TEXTS_H

#include <stdint.h>
#include <stdio.h>
#include <stdlib.h>
#include <string.h>

typedef struct {
    uint8_t *bytes; /* NULL where there is none */
    size_t length;
} text;

static inline void stop(const char *why, const char *what) {
    fprintf(stderr, "%s %s\n", why, what);
    exit(4);
}

static inline text text_at(const char *path) {
    text all = {NULL, 0};
    if (!strcmp(path, "-"))
        return all;
    FILE *file = fopen(path, "rb");
    if (!file)
        stop("no file", path);
    fseek(file, 0, SEEK_END);
    all.length = (size_t)ftell(file);
    rewind(file);
    all.bytes = malloc(all.length + 1);
    if (!all.bytes || fread(all.bytes, 1, all.length, file) != all.length)
        stop("not read:", path);
    fclose(file);
    return all;
}

#endif
