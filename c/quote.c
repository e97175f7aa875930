/* Reads an access structure and a certificate from two files and prints the judgement's number alone on a line. */
#include "quote.h"

#include <stdio.h>
#include <stdlib.h>

struct buffer {
    uint8_t *bytes;
    size_t length;
};

/* The whole file, or 0 if it cannot be read. An empty file is an ordinary input. */
static int read_file(const char *path, struct buffer *into)
{
    FILE *file = fopen(path, "rb");
    size_t room = 4096;
    if (file == NULL)
        return 0;
    into->length = 0;
    into->bytes = malloc(room);
    while (into->bytes != NULL) {
        size_t got = fread(into->bytes + into->length, 1, room - into->length, file);
        uint8_t *grown;
        into->length += got;
        if (into->length < room)
            break;
        room *= 2;
        grown = realloc(into->bytes, room);
        if (grown == NULL)
            free(into->bytes);
        into->bytes = grown;
    }
    if (into->bytes == NULL || ferror(file)) {
        free(into->bytes);
        fclose(file);
        return 0;
    }
    fclose(file);
    return 1;
}

int main(int count, char **arguments)
{
    struct buffer structure, certificate;
    if (count != 3) {
        fprintf(stderr, "usage: quote RULE CERTIFICATE\n");
        return 2;
    }
    if (!read_file(arguments[1], &structure)) {
        fprintf(stderr, "quote: cannot read %s\nusage: quote RULE CERTIFICATE\n", arguments[1]);
        return 2;
    }
    if (!read_file(arguments[2], &certificate)) {
        fprintf(stderr, "quote: cannot read %s\nusage: quote RULE CERTIFICATE\n", arguments[2]);
        free(structure.bytes);
        return 2;
    }
    printf("%u\n", (unsigned)quote_check(structure.bytes, structure.length, certificate.bytes, certificate.length));
    free(structure.bytes);
    free(certificate.bytes);
    return ferror(stdout) || fflush(stdout) != 0 ? 1 : 0;
}
