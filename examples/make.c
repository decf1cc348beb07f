/* Makes a certificate for the three files that are named first on the command line, left, right and relation, writes it to the fourth, and prints the six
 * numbers. It enquires first, and sets aside as many bytes as the certificate has; on a refusal it sets none aside and writes no file. From the
 * repository's folder:
 *
 *     make library
 *     cc -I include examples/make.c target/staticlib/libstutter.a -o target/make
 */
#include "files.h"

#include <stdlib.h>

int main(int count, char **words)
{
    static struct file files[3];
    if (count != 5) {
        fprintf(stderr, "usage: make LEFT RIGHT RELATION CERTIFICATE\n");
        return 2;
    }
    for (int i = 0; i < 3; i++)
        if (!read_file(words[i + 1], &files[i]))
            return 2;

    uint64_t slip[STUTTER_SLIP_LENGTH], answer[STUTTER_ANSWER_LENGTH];
    if (!stutter_enquire(files[0].bytes, files[0].length, files[1].bytes, files[1].length, files[2].bytes, files[2].length,
                         slip, STUTTER_SLIP_LENGTH, answer, STUTTER_ANSWER_LENGTH))
        return 2;
    if (answer[0] == 0) {
        size_t length = answer[2];
        uint8_t *output = malloc(length);
        if (output == NULL) {
            fprintf(stderr, "there is no room for the certificate\n");
            return 2;
        }
        if (!stutter_commit(files[0].bytes, files[0].length, files[1].bytes, files[1].length, files[2].bytes, files[2].length,
                            slip, STUTTER_SLIP_LENGTH, output, length, answer, STUTTER_ANSWER_LENGTH))
            return 2;
        if (answer[0] == 0 && !write_file(words[4], output, length))
            return 2;
        free(output);
    }
    print_answer(answer);
    return 0;
}
