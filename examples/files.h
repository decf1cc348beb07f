/* Reading and writing files and printing answers, for the examples in C. */
#ifndef FILES_H
#define FILES_H

#include "stutter.h"

#include <inttypes.h>
#include <stdio.h>

/* No file that is good is longer; a longer one is refused for its length, as its first bytes alone are. */
enum { MOST = 65536 };

struct file {
    uint8_t bytes[MOST];
    size_t length;
};

static inline bool read_file(const char *name, struct file *file)
{
    FILE *stream = fopen(name, "rb");
    if (stream == NULL) {
        perror(name);
        return false;
    }
    file->length = fread(file->bytes, 1, MOST, stream);
    fclose(stream);
    return true;
}

static inline bool write_file(const char *name, const uint8_t *bytes, size_t length)
{
    FILE *stream = fopen(name, "wb");
    if (stream == NULL || fwrite(bytes, 1, length, stream) != length || fclose(stream) != 0) {
        perror(name);
        return false;
    }
    return true;
}

static inline void print_answer(const uint64_t *answer)
{
    for (int i = 0; i < STUTTER_ANSWER_LENGTH; i++)
        printf("%" PRIu64 "%c", answer[i], i + 1 < STUTTER_ANSWER_LENGTH ? ' ' : '\n');
}

#endif
