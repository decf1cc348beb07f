/* Judges the three files that are named on the command line, left, right and certificate, and prints the six numbers. From the repository's folder:
 *
 *     make library
 *     cc -I include examples/judge.c target/staticlib/libstutter.a -o target/judge
 */
#include "files.h"

int main(int count, char **words)
{
    static struct file files[3];
    if (count != 4) {
        fprintf(stderr, "usage: judge LEFT RIGHT CERTIFICATE\n");
        return 2;
    }
    for (int i = 0; i < 3; i++)
        if (!read_file(words[i + 1], &files[i]))
            return 2;

    uint64_t answer[STUTTER_ANSWER_LENGTH];
    if (!stutter_judge(files[0].bytes, files[0].length, files[1].bytes, files[1].length, files[2].bytes, files[2].length,
                       answer, STUTTER_ANSWER_LENGTH))
        return 2;
    print_answer(answer);
    return 0;
}
