/* Writes a table to the file that is named first on the command line, and prints the six numbers. Then come the marks of its states, its starts, and its
 * steps in any order, each a list with commas, where '' is the empty one. On a refusal no file is written. From the repository's folder:
 *
 *     make library
 *     cc -I include examples/write.c target/staticlib/libstutter.a -o target/write
 *
 * and this is a table of two states with the marks 0 and 1, of which 0 is a start, and the steps 0-1 and 1-0:
 *
 *     target/write target/P 0,1 0 1-0,0-1
 */
#include "files.h"

#include <stdlib.h>

/* Reads a number to `most`, and goes on to what stands after it. */
static bool read_number(const char **text, uint64_t most, uint64_t *number)
{
    char *end;
    bool is_number = **text >= '0' && **text <= '9';
    *number = strtoull(*text, &end, 10);
    *text = end;
    return is_number && *number <= most;
}

/* Goes on past this character, where it stands there. */
static bool read_character(const char **text, char character)
{
    bool stands = **text == character;
    *text += stands;
    return stands;
}

/* An entry is read to its end: at a comma, after which the next one begins, or at the end of the list. */
static bool read_end(const char **text)
{
    return read_character(text, ',') || **text == '\0';
}

/* How many entries a list has. */
static size_t count_entries(const char *list)
{
    size_t count = *list == '\0' ? 0 : 1;
    for (; *list != '\0'; list++)
        count += *list == ',';
    return count;
}

static bool read_marks(const char *list, uint32_t *marks, size_t length)
{
    uint64_t mark;
    for (size_t i = 0; i < length; i++) {
        if (!read_number(&list, UINT32_MAX, &mark) || !read_end(&list))
            return false;
        marks[i] = (uint32_t)mark;
    }
    return true;
}

static bool read_starts(const char *list, uint64_t *starts)
{
    uint64_t start;
    *starts = 0;
    for (size_t rest = count_entries(list); rest > 0; rest--) {
        if (!read_number(&list, 63, &start) || !read_end(&list))
            return false;
        *starts |= UINT64_C(1) << start;
    }
    return true;
}

static bool read_steps(const char *list, uint16_t *steps, size_t length)
{
    uint64_t from, to;
    for (size_t i = 0; i < length; i++) {
        if (!read_number(&list, UINT8_MAX, &from) || !read_character(&list, '-') || !read_number(&list, UINT8_MAX, &to) || !read_end(&list))
            return false;
        steps[i] = (uint16_t)(from * 256 + to);
    }
    return true;
}

static int fail(const char *why)
{
    fprintf(stderr, "%s\n", why);
    return 2;
}

int main(int count, char **words)
{
    static uint8_t output[STUTTER_TABLE_MOST];
    if (count != 5)
        return fail("usage: write FILE MARK,MARK.. START,START.. FROM-TO,FROM-TO..");
    size_t marks_length = count_entries(words[2]), steps_length = count_entries(words[4]);
    uint32_t *marks = malloc((marks_length + 1) * sizeof *marks);
    uint16_t *steps = malloc((steps_length + 1) * sizeof *steps);
    uint64_t starts;
    if (marks == NULL || steps == NULL)
        return fail("there is no room for the lists");
    if (!read_marks(words[2], marks, marks_length))
        return fail("a mark is a number to 4294967295, and a comma stands between two marks");
    if (!read_starts(words[3], &starts))
        return fail("a start is a number to 63, and a comma stands between two starts");
    if (!read_steps(words[4], steps, steps_length))
        return fail("a step is two numbers to 255 with - between them, and a comma stands between two steps");

    uint64_t answer[STUTTER_ANSWER_LENGTH];
    if (!stutter_write(marks, marks_length, starts, steps, steps_length, output, STUTTER_TABLE_MOST, answer, STUTTER_ANSWER_LENGTH))
        return 2;
    if (answer[0] == 0 && !write_file(words[1], output, answer[2]))
        return 2;
    print_answer(answer);
    free(marks);
    free(steps);
    return 0;
}
