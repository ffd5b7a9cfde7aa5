// many_files FILE..    judges each file by gate_check, one after the other, and prints its name and the line of its verdict.
#include <stdio.h>
#include <stdlib.h>

#include "gate.h"

static uint8_t *read_file(const char *path, size_t *length) {
    FILE *file = fopen(path, "rb");
    if (!file || fseek(file, 0, SEEK_END)) exit(74);
    const long size = ftell(file);
    uint8_t *bytes = malloc(size + 1);
    rewind(file);
    if (!bytes) exit(70);
    *length = fread(bytes, 1, size, file);
    fclose(file);
    return bytes;
}

int main(int count, char **paths) {
    for (int i = 1; i < count; i++) {
        uint8_t line[64];
        gate_verdict verdict;
        size_t length, written;
        uint8_t *bytes = read_file(paths[i], &length);
        if (gate_check(bytes, length, &verdict) == GATE_NO_MEMORY) return 70;
        if (gate_verdict_line(&verdict, line, sizeof line, &written) != GATE_OK) return 64;
        printf("%s\t%.*s", paths[i], (int)written, (const char *)line);
        free(bytes);
    }
}
