/* Linked with an example by --wrap=malloc and --wrap=stutter_commit, this tells on standard error how many bytes are set aside, and the slip and the
 * length of the output with which the commit is called. */
#include "stutter.h"

#include <inttypes.h>
#include <stdio.h>

void *__real_malloc(size_t length);

void *__wrap_malloc(size_t length)
{
    fprintf(stderr, "set aside %zu\n", length);
    return __real_malloc(length);
}

bool __real_stutter_commit(const uint8_t *, size_t, const uint8_t *, size_t, const uint8_t *, size_t, const uint64_t *, size_t, uint8_t *, size_t,
                           uint64_t *, size_t);

bool __wrap_stutter_commit(const uint8_t *left, size_t left_length, const uint8_t *right, size_t right_length, const uint8_t *relation,
                           size_t relation_length, const uint64_t *slip, size_t slip_length, uint8_t *output, size_t output_length, uint64_t *answer,
                           size_t answer_length)
{
    fprintf(stderr, "slip");
    for (size_t i = 0; i < slip_length; i++)
        fprintf(stderr, " %" PRIu64, slip[i]);
    fprintf(stderr, ", output %zu\n", output_length);
    return __real_stutter_commit(left, left_length, right, right_length, relation, relation_length, slip, slip_length, output, output_length, answer,
                                 answer_length);
}
