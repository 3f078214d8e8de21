/* Checks a module against a certificate, as `dgc check MODULE CERT --explain always` does, by the library.

       check MODULE CERT

   It ends with the status of `dgc check`. */
#include <dgc.h>
#include <stdio.h>
#include <stdlib.h>

typedef struct {
    uint8_t *bytes; /* NULL where there is none */
    size_t length;
} text;

static void *memory(size_t size) {
    void *made = malloc(size ? size : 1);
    if (!made) {
        fputs("error memory\n", stderr);
        exit(DGC_NO_MEMORY);
    }
    return made;
}

static text file_at(const char *path) {
    text all = {NULL, 0};
    FILE *file = fopen(path, "rb");
    if (!file || fseek(file, 0, SEEK_END) || ftell(file) < 0) {
        fprintf(stderr, "error file %s\n", path);
        exit(4);
    }
    all.length = (size_t)ftell(file);
    all.bytes = memory(all.length);
    rewind(file);
    if (fread(all.bytes, 1, all.length, file) != all.length) {
        fprintf(stderr, "error file %s\n", path);
        exit(4);
    }
    fclose(file);
    return all;
}

/* The explanation, in as much room as it takes: the first call copies nothing, and tells how long it is. */
static text explained(text module, text certificate) {
    text told = {NULL, dgc_explain(false, module.bytes, module.length, certificate.bytes, certificate.length, NULL, 0)};
    told.bytes = memory(told.length);
    dgc_explain(false, module.bytes, module.length, certificate.bytes, certificate.length, told.bytes, told.length);
    return told;
}

static void tell_place(const dgc_place *place) {
    if (!place->letter)
        return;
    printf("code %c%u", (char)place->letter, place->number);
    if (place->function != DGC_NOWHERE)
        printf(", function %zu, block %zu, instruction %zu", place->function, place->block, place->instruction);
    if (place->line)
        printf(", line %zu, column %zu", place->line, place->column);
    printf("\n");
}

int main(int count, char **words) {
    uint8_t room[4096];
    dgc_answer answer;
    if (count != 3) {
        fputs("check MODULE CERT\n", stderr);
        return 4;
    }
    if (dgc_interface() != DGC_INTERFACE) {
        fputs("check: the header is that of another library\n", stderr);
        return 4;
    }
    text module = file_at(words[1]), certificate = file_at(words[2]);
    uint32_t status = dgc_check(false, module.bytes, module.length, certificate.bytes, certificate.length, room, sizeof room, &answer);
    printf("%.*s", (int)(answer.length < sizeof room ? answer.length : sizeof room), (char *)room);
    tell_place(&answer.place);
    if (status != DGC_YES) {
        text told = explained(module, certificate);
        printf("%.*s", (int)told.length, (char *)told.bytes);
        free(told.bytes);
    }
    free(module.bytes);
    free(certificate.bytes);
    return (int)status;
}
