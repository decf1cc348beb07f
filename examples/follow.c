/* Follows a run of one table on the other. The command line names three files, left, right and certificate; then the path's side, 0 left or 1 right; the
 * start on the other side; and the path's states. It prints a line for each block: the states given, and beside them those that match. On a refusal
 * it prints the six numbers. From the repository's folder:
 *
 *     make library
 *     cc -I include examples/follow.c target/staticlib/libstutter.a -o target/follow
 */
#include "files.h"

#include <stdlib.h>

/* No path that is good is longer; a longer one is refused for its length, as its first states alone are. */
enum { PATH_MOST = 257 };

static uint8_t path[PATH_MOST], states[STUTTER_STATES_MOST], blocks[STUTTER_BLOCKS_MOST];

static bool read_number(const char *word, uint64_t most, uint64_t *number)
{
    char *end;
    *number = strtoull(word, &end, 10);
    return word[0] >= '0' && word[0] <= '9' && *end == '\0' && *number <= most;
}

static size_t block_number(const uint8_t *bytes)
{
    return bytes[0] * 256u + bytes[1];
}

/* How many of the next states given are in this block. */
static size_t block_length(size_t first, size_t path_length, size_t block)
{
    size_t last = first;
    while (last < path_length && block_number(&blocks[2 * last]) == block)
        last++;
    return last - first;
}

static void print_blocks(size_t path_length, size_t states_length)
{
    size_t count = block_number(&blocks[2 * (path_length - 1)]) + 1;
    size_t widest = 0;
    for (size_t block = 0, i = 0; block < count; block++) {
        size_t length = block_length(i, path_length, block);
        widest = length > widest ? length : widest;
        i += length;
    }
    for (size_t block = 0, i = 0, j = 0; block < count; block++) {
        size_t length = block_length(i, path_length, block);
        printf("block %3zu:", block);
        for (size_t end = i + length; i < end; i++)
            printf("%3u", path[i]);
        printf("%*s", (int)(3 * (widest - length) + 3), "");
        for (; j < states_length && block_number(&states[3 * j + 1]) == block; j++)
            printf("%3u", states[3 * j]);
        printf("\n");
    }
}

int main(int count, char **words)
{
    static struct file files[3];
    uint64_t side, start, state;
    if (count < 6 || !read_number(words[4], UINT64_MAX, &side) || !read_number(words[5], UINT64_MAX, &start)) {
        fprintf(stderr, "usage: follow LEFT RIGHT CERTIFICATE SIDE START STATE ..\n");
        return 2;
    }
    for (int i = 0; i < 3; i++)
        if (!read_file(words[i + 1], &files[i]))
            return 2;
    size_t path_length = 0;
    for (; path_length < PATH_MOST && path_length + 6 < (size_t)count; path_length++) {
        if (!read_number(words[path_length + 6], UINT8_MAX, &state)) {
            fprintf(stderr, "a state is a number to 255\n");
            return 2;
        }
        path[path_length] = (uint8_t)state;
    }

    uint64_t answer[STUTTER_ANSWER_LENGTH];
    if (!stutter_follow(files[0].bytes, files[0].length, files[1].bytes, files[1].length, files[2].bytes, files[2].length, side, start, path, path_length,
                        states, STUTTER_STATES_MOST, blocks, STUTTER_BLOCKS_MOST, answer, STUTTER_ANSWER_LENGTH))
        return 2;
    if (answer[0] == 0)
        print_blocks(path_length, answer[2]);
    else
        print_answer(answer);
    return 0;
}
