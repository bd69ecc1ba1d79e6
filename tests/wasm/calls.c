/* Makes calls of the command by the native library, for a comparison with harness.mjs:
 *
 *   calls CALLS ANSWERS
 *
 * CALLS is by make_calls.py. Of each call ANSWERS has the status, and then a number of 32 bits and so many bytes of what
 * would be printed, and the same of the note. */
#include <stdio.h>
#include <stdlib.h>
#include <string.h>
#include "tiling.h"

enum { ROOM = 1 << 26, NOTE = 4096 };

static uint8_t *taken(size_t bytes) {
    uint8_t *place = malloc(bytes + 1);
    if (!place) exit(2);
    return place;
}

/* The length of the next part of a file, which is then in `part`; -1 at the end. */
static long next(FILE *file, uint8_t **part) {
    uint32_t bytes;
    if (fread(&bytes, 4, 1, file) != 1) return -1;
    *part = taken(bytes);
    if (fread(*part, 1, bytes, file) != bytes) exit(2);
    return bytes;
}

static void put(FILE *file, const void *part, size_t bytes) {
    uint32_t length = (uint32_t)bytes;
    fwrite(&length, 4, 1, file);
    fwrite(part, 1, bytes, file);
}

int main(int count, char **names) {
    FILE *calls = count == 3 ? fopen(names[1], "rb") : NULL, *answers = calls ? fopen(names[2], "wb") : NULL;
    uint8_t *words, *input, *out = taken(ROOM), *note = taken(NOTE);
    long words_bytes, made = 0;
    if (!answers) return 2;
    while ((words_bytes = next(calls, &words)) >= 0) {
        size_t input_bytes = (size_t)next(calls, &input), out_bytes = 0, note_bytes = 0;
        uint8_t status = tiling_call((char *)words, (size_t)words_bytes, input, input_bytes, out, ROOM, &out_bytes,
                                     (char *)note, NOTE, &note_bytes);
        if (out_bytes > ROOM || note_bytes > NOTE) return 3;
        fputc(status, answers);
        put(answers, out, out_bytes);
        put(answers, note, note_bytes);
        free(words);
        free(input);
        made++;
    }
    if (fclose(answers)) return 2;
    printf("%ld calls\n", made);
    return 0;
}
