/* Makes a certificate for the three files that are named first on the command line, left, right and relation, by stutter_make and by
 * stutter_make_by_sets, writes it to the fourth file and to the fifth, and prints the six numbers of both. On a refusal no file is written. */
#include "files.h"

typedef bool maker(const uint8_t *, size_t, const uint8_t *, size_t, const uint8_t *, size_t, uint8_t *, size_t, uint64_t *, size_t);

int main(int count, char **words)
{
    static struct file files[3];
    static uint8_t outputs[2][STUTTER_CERTIFICATE_MOST];
    maker *const makers[2] = {stutter_make, stutter_make_by_sets};
    if (count != 6)
        return 2;
    for (int i = 0; i < 3; i++)
        if (!read_file(words[i + 1], &files[i]))
            return 2;

    for (int i = 0; i < 2; i++) {
        uint64_t answer[STUTTER_ANSWER_LENGTH];
        if (!makers[i](files[0].bytes, files[0].length, files[1].bytes, files[1].length, files[2].bytes, files[2].length,
                       outputs[i], STUTTER_CERTIFICATE_MOST, answer, STUTTER_ANSWER_LENGTH))
            return 2;
        if (answer[0] == 0 && !write_file(words[4 + i], outputs[i], answer[2]))
            return 2;
        print_answer(answer);
    }
    return 0;
}
