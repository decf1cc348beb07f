/* The judge and the two makers of stuttering certificates, the enquiry and the commit, the follower of runs and the writer of tables, for C. Link with
 * libstutter.a, which `make library` writes to target/staticlib. */
#ifndef STUTTER_H
#define STUTTER_H

#include <stdbool.h>
#include <stddef.h>
#include <stdint.h>

#ifdef __cplusplus
extern "C" {
#endif

/* The places that an answer takes: code, file, a, b, c, d. */
#define STUTTER_ANSWER_LENGTH 6

/* Judges a certificate for two state tables, which both have keys on their steps ("TPK") or both have none ("TPT"). A step with key 0 is silent, and so is
 * every step of a table without keys. Each file is a pointer to its bytes and their number. Any bytes are taken, and no file is too short or too long. No
 * pointer is null, not even that of an empty file.
 *
 * The six numbers go to the first six places of `answer`, later places stay as they are, and the function returns true. Where `answer_length`
 * is below six nothing at all is written, and it returns false. `answer` overlaps no file.
 *
 *   answer[0]  code: 0 where the certificate is accepted, else the number of the cause for which it is refused
 *   answer[1]  file: 0 left table, 1 right table, 2 certificate
 *   answer[2]  a ..
 *   answer[5]  .. d: as the code says; a value that it does not name is 0
 *
 *   code     a, b, c, d
 *   0        a related pairs, b, c, d obligations met by the clauses 2a, 2b, 2c
 *   1 to 7   none: table under 9 bytes or with a start word under 16, its first three bytes, its version, its states, its start, its steps, its length
 *   8, 9     a the first step that ends outside the states, or that stands twice (version 1 without keys)
 *   10 to 14 none: certificate under 11 bytes, its first three bytes, its version, a size unlike the tables', its length
 *   15       a the first row with a state that the right table does not have
 *   16       a left start, b right start: they are not related. Where either table has a start word: a side (0 left, 1 right), b its first start that
 *            is related to no start of the other table, left side first
 *   17       a left state, b right state: they are related and their marks differ, as numbers, whatever the width that each has in its file
 *   18, 19   a side (0 left, 1 right), b left state, c right state, d step: no clause holds of this step. 18 where no ranks could help: its end
 *            and the other state are not related or its key is not 0, and no silent step of the other state stays related; 19 otherwise
 *   24       a the first step that is not greater than the one before it, by from, then by to, then by key (all but version 1 without keys, in place
 *            of 9)
 *   28       none: the start word is 0 or has a bit that is no state (versions 3 and 4, and tables with keys, in place of 5)
 *   30       none: one table has keys and the other has none; the file is 1
 */
bool stutter_judge(const uint8_t *left, size_t left_length,
                   const uint8_t *right, size_t right_length,
                   const uint8_t *certificate, size_t certificate_length,
                   uint64_t *answer, size_t answer_length);

/* The most bytes that a certificate has: for two tables of 64 states and 256 steps. An output of this length serves any two tables. */
#define STUTTER_CERTIFICATE_MOST 41483

/* Makes a certificate for two state tables and a relation between their states. The relation has 8 bytes for each left state s, high byte first;
 * the bit of weight 2 to the power t says that s and the right state t are related. Any bytes are taken, and no file is too short or too long.
 * No pointer is null, not even that of an empty file.
 *
 * A certificate of L bytes goes to the first L bytes of `output`, later bytes stay as they are; on a refusal `output` stays as it was. The six numbers
 * go to the first six places of `answer`, later places stay as they are, and the function returns true. Where `answer_length` is below six
 * nothing at all is written, neither to `output` nor to `answer`, and it returns false. `output` and `answer` overlap each other and the files nowhere.
 *
 *   answer[0]  code: 0 where a certificate was made, which stutter_judge then accepts; else the number of the cause for which there is none
 *   answer[1]  file: 0 left table, 1 right table, 2 relation, 3 output
 *   answer[2]  a ..
 *   answer[5]  .. d: as the code says; a value that it does not name is 0
 *
 *   code     a, b, c, d
 *   0        a the bytes of the certificate, L
 *   1 to 9   as of stutter_judge, and so 24, 28 and 30
 *   15 to 17 as of stutter_judge, with the rows of the relation
 *   20       none: the relation has not 8 bytes for each left state
 *   21       a the bytes that the certificate needs, L: the output has fewer. With an output of no bytes this asks for L
 *   22       a side (0 left, 1 right), b left state, c right state, d step: no path of the other state matches this step, and its end and the
 *            other state are not related or its key is not 0
 *   23       a side, b a state of the other side, c a state of this side: from c there are endless silent steps through states related to b that
 *            no path from b matches
 */
bool stutter_make(const uint8_t *left, size_t left_length,
                  const uint8_t *right, size_t right_length,
                  const uint8_t *relation, size_t relation_length,
                  uint8_t *output, size_t output_length,
                  uint64_t *answer, size_t answer_length);

/* Makes a certificate as stutter_make does, by another method: for each step it grows the set of states at which the step is matched, as a 64-bit word. Its
 * parameters are those of stutter_make, and so is all that is said of them there. For every input both give the same six numbers and the same bytes, so
 * either may stand for the other. Use this one for large tables; stutter_make is the reference.
 */
bool stutter_make_by_sets(const uint8_t *left, size_t left_length,
                          const uint8_t *right, size_t right_length,
                          const uint8_t *relation, size_t relation_length,
                          uint8_t *output, size_t output_length,
                          uint64_t *answer, size_t answer_length);

/* The places that a slip takes. */
#define STUTTER_SLIP_LENGTH 4

/* Says whether a certificate can be made, before an output is set aside for it. The files are those of stutter_make. Any bytes are taken, and no file is
 * too short or too long. No pointer is null, not even that of an empty file.
 *
 * The six numbers are those that stutter_make gives with an output that is long enough, so never 21; they go to the first six places of `answer`. A slip for
 * stutter_commit goes to the first four places of `slip`. Later places of both stay as they are, and the function returns true. Where `answer_length` is
 * below six or `slip_length` below four nothing at all is written, neither to `slip` nor to `answer`, and it returns false. `slip` and `answer` overlap
 * each other and the files nowhere.
 *
 *   slip[0]    the bytes of the left table
 *   slip[1]    the bytes of the right table
 *   slip[2]    the bytes of the relation
 *   slip[3]    the bytes of the certificate, L; on a refusal all four are 0
 *
 *   answer[0]  code: 0 where a certificate can be made; else the number of the cause for which there is none
 *   answer[1]  file: 0 left table, 1 right table, 2 relation
 *   answer[2]  a ..
 *   answer[5]  .. d: as the code says; a value that it does not name is 0
 *
 *   code     a, b, c, d
 *   0        a the bytes of the certificate, L
 *   1 to 9   as of stutter_make, and so 15 to 17, 20, 22 to 24, 28 and 30
 */
bool stutter_enquire(const uint8_t *left, size_t left_length,
                     const uint8_t *right, size_t right_length,
                     const uint8_t *relation, size_t relation_length,
                     uint64_t *slip, size_t slip_length,
                     uint64_t *answer, size_t answer_length);

/* Makes the certificate after an enquiry. The files are those of stutter_make, and the first four places of `slip` are the slip; later ones do not count.
 * Any bytes and any numbers are taken, and no file is too short or too long. No pointer is null, not even that of an empty file or output.
 *
 * A certificate of L bytes goes to the first L bytes of `output`, later bytes stay as they are; on a refusal `output` stays as it was. The six numbers
 * go to the first six places of `answer`, later places stay as they are, and the function returns true. Where `answer_length` is below six or
 * `slip_length` below four nothing at all is written, neither to `output` nor to `answer`, and it returns false. `output` and `answer` overlap each
 * other, the slip and the files nowhere.
 *
 *   answer[0]  code: 0 where a certificate was made, the one that stutter_make makes; else the number of the cause for which it was not
 *   answer[1]  file: 0 left table, 1 right table, 2 relation or slip, 3 output
 *   answer[2]  a ..
 *   answer[5]  .. d: as the code says; a value that it does not name is 0
 *
 *   code     a, b, c, d
 *   0        a the bytes of the certificate, L
 *   1 to 9   as of stutter_make, and so 15 to 17, 20 to 24, 28 and 30
 *   29       none: a number on the slip is not that of the files
 *
 * Where several of these apply, the first is answered of: 1 to 9, 24 and 28 of the left table, then of the right one; 30, 20, 15, 29, 21, 16; 17 and 22;
 * 23. So with the files and the slip of an enquiry that was answered with 0, an output of L bytes always serves. With the zeros of a refused one the same
 * refusal comes again, or 29 in place of 16, 17, 22 and 23.
 */
bool stutter_commit(const uint8_t *left, size_t left_length,
                    const uint8_t *right, size_t right_length,
                    const uint8_t *relation, size_t relation_length,
                    const uint64_t *slip, size_t slip_length,
                    uint8_t *output, size_t output_length,
                    uint64_t *answer, size_t answer_length);

/* The most bytes that are written for a run: 256 states are given, and at most 64 written for each. Outputs of these lengths serve any run. */
#define STUTTER_STATES_MOST 49152
#define STUTTER_BLOCKS_MOST 512

/* Follows a run of one table on the other; both are without keys. The path has a byte for each state and is a path of the table that `side` names, 0 left
 * or 1 right, from any of its states. `start` is a state of the other table, any one that is related to the path's first state. Any bytes are taken, and no
 * file and no path is too short or too long. No pointer is null, not even that of an empty file or output.
 *
 * It finds a path of the other table from `start`, and cuts both into blocks, numbered from 0, each state of a block related to all states of the other
 * path's block of that number. For each state of the path found, three bytes go to `states`: the state and its block number, high byte first. For
 * each state of the path given, two bytes go to `blocks`: its block number. Later bytes stay as they are; on a refusal both outputs stay as they
 * were. Each step is answered by the first of the clauses 2a, 2b, 2c that holds, and by the smallest state that serves; a new block begins at each
 * 2a. Where the path given ends in a terminal state, the path found goes on by smallest steps to a terminal state.
 *
 * The six numbers go to the first six places of `answer`, later places stay as they are, and the function returns true. Where `answer_length`
 * is below six nothing at all is written, neither to `states` nor to `blocks` nor to `answer`, and it returns false. `states`, `blocks` and `answer`
 * overlap each other, the files and the path nowhere.
 *
 *   answer[0]  code: 0 where the run was followed, else the number of the cause for which it was not
 *   answer[1]  file: 0 left table, 1 right table, 2 certificate, 3 output, 4 path
 *   answer[2]  a ..
 *   answer[5]  .. d: as the code says; a value that it does not name is 0
 *
 *   code     a, b, c, d
 *   0        a the states of the path found
 *   1 to 19  as of stutter_judge, and so 24 and 28: the certificate is judged first. A table with keys gets 2
 *   25       none: the side is not 0 or 1, or the path is empty, has over 256 states, a state that its table does not have, or two neighbours that are
 *            no step
 *   26       none: the start is no state of the other table, or is not related to the path's first state
 *   27       none: `states` has fewer than three bytes for each state of the path found, or `blocks` fewer than two for each state of the path given
 */
bool stutter_follow(const uint8_t *left, size_t left_length,
                    const uint8_t *right, size_t right_length,
                    const uint8_t *certificate, size_t certificate_length,
                    uint64_t side, uint64_t start,
                    const uint8_t *path, size_t path_length,
                    uint8_t *states, size_t states_length,
                    uint8_t *blocks, size_t blocks_length,
                    uint64_t *answer, size_t answer_length);

/* The most bytes that are written for a table: one of 64 states and 256 steps. An output of this length serves any table. */
#define STUTTER_TABLE_MOST 784

/* Writes a state table of version 4, without keys. It has a state for each mark, and `starts` has the bit of weight 2 to the power s where the state s is a
 * start. A step has the state that it leaves in its high byte and the one that it enters in its low byte; the steps come in any order, none twice. Any
 * numbers are taken, and no list is too short or too long; its length counts numbers, not bytes. No pointer is null, not even that of an empty list or
 * output.
 *
 * With n marks and m steps, the table goes to the first 16 + 4n + 2m bytes of `output`, the marks in the order given and the steps in rising order, by
 * from, then by to; later bytes stay as they are. So the same marks, starts and set of steps always give the same bytes. On a refusal `output` stays as
 * it was. The six numbers go to the first six places of `answer`, later places stay as they are, and the function returns true. Where `answer_length` is
 * below six nothing at all is written, neither to `output` nor to `answer`, and it returns false. `output` and `answer` overlap each other and the lists
 * nowhere.
 *
 *   answer[0]  code: 0 where the table was written, which the other functions then read; else the number of the cause for which it was not
 *   answer[1]  file: 3 on a refusal, the output
 *   answer[2]  a: as the code says; a value that it does not name is 0, and so are the last three places
 *
 *   code     a
 *   0        the bytes of the table, 16 + 4n + 2m
 *   4        none: there are not 1 to 64 marks
 *   28       none: the start word is 0 or has a bit that is no state
 *   6        none: there are over 256 steps
 *   8        the first step, as given, that leaves or enters no state
 *   9        the first step, as given, that equals an earlier one
 *   21       the bytes that the table needs, 16 + 4n + 2m: the output has fewer. With an output of no bytes this asks for them
 *
 * Where several of these apply, the one that stands first here is answered.
 */
bool stutter_write(const uint32_t *marks, size_t marks_length,
                   uint64_t starts,
                   const uint16_t *steps, size_t steps_length,
                   uint8_t *output, size_t output_length,
                   uint64_t *answer, size_t answer_length);

#ifdef __cplusplus
}
#endif

#endif
