/* Path questions over a bench register: the calls of libpaths.a, for C99 and C++ on x86-64 Linux.
 *
 * Files are bytes in memory, in the form that the specification gives; the readers take any bytes of any length, and refuse by number
 * and place. No call relies on an earlier one: each reads its files anew.
 *   sheet      kinds, link names and permitted triples        at most  3,077 bytes
 *   question   a path of 1 to 32 symbols                      at most    148 bytes
 *   register   N records (0 to 1,024) and their links         at most 36,871 bytes
 *   narrowed   a narrowed question: members with kind sets    at most 50,821 bytes
 *
 * Areas are lent by the caller, of any length and with any contents; a length counts elements.
 *   work       words to work in: PATHS_NARROW_WORK, PATHS_ANSWER_WORK(N), PATHS_JOB_WORK(N)
 *   answer     PATHS_ANSWER_WORDS(N) words: bit t % 64 of word s * W + t / 64 is the pair of records (s, t), W = PATHS_ROW_WORDS(N)
 *   file       where a narrowed question is written; PATHS_FILE_BYTES are always enough, paths_narrow_bytes tells how many are needed;
 *              by paths_shorten, where a question is written; as many bytes as the question has are enough
 *
 * A result of 0 is acceptance: *first is the number of members, by paths_shorten of symbols, and *second the number of bytes of the file
 * that was written, or that paths_narrow would write; both are 0 for the other calls. Any other result is the number of a refusal: *first
 * is its place and *second what it is about, one of the PATHS_IN_ numbers. Both are always written.
 *
 *   result                  reason                                                          place
 *   1  PATHS_TRUNCATED      one or two bytes left for a field's head, or a body past        the byte at which the field begins
 *                           the file's end
 *   2  PATHS_UNEXPECTED     a tag not due there, or a length not its own                    the same
 *   3  PATHS_OUT_OF_RANGE   a number outside its range                                      the same
 *   4  PATHS_NOT_ASCENDING  a field, or a member, not above the one before                  the same; of a member its first field
 *   5  PATHS_WRONG_END      the file ends with fields due, or a byte follows the last one   the file's length, or that byte
 *   6  PATHS_OPERANDS       an operator lacks an operand, or several paths remain           the operator, or the byte after the path
 *   11 PATHS_UNNAMED_LINK   a link of the question is not one of the sheet's                the symbol, from 0
 *   12 PATHS_TOO_MANY       a part of the question has over 128 distinct triples            the symbol that ends the part
 *   13 PATHS_TOO_LONG       a part has a triple whose path has over 48 symbols              the same
 *   14 PATHS_AREA_SHORT     the answer area or the file area is too short                   words or bytes needed
 *   15 PATHS_WORK_SHORT     the work area is too short                                      words needed
 *   16 PATHS_BREACH         the register does not obey the sheet                            the first such record, else N plus the index
 *                                                                                           of the first such link
 *
 * Order: 1 to 6 of the sheet, the question, the narrowed question, the register; 15; 14 for the answer; 11; 16; the first symbol with 13
 * or 12 (13 where it has both); 14 for the file. Only paths_check and paths_job give 16, only paths_narrow, paths_narrow_bytes and
 * paths_job 11 to 13; paths_narrow_bytes never gives 14.
 *
 * What is left: a refused call leaves answer and file as they were, an accepted one what lies past the words and bytes that it has to
 * write. Work words up to the need are untouched by 1 to 6 and 15, and 0 after any other return; those past it are untouched.
 *
 * The caller sees to it that each pointer is not null (also where its length is 0), is aligned for its type and holds for its length,
 * that first and second differ, and that no area overlaps a file or another area. Files may overlap.
 *
 * No call has state, takes memory from the heap or calls anything but memcpy, memmove and memset; every call returns. Threads may call
 * at once, each with areas of its own. 256 KiB of stack are enough; measured: paths_check 33 KiB, paths_narrow and paths_narrow_bytes
 * 49 KiB, paths_shorten 1 KiB, paths_answer 11 KiB, paths_answer_narrowed 79 KiB, paths_job 112 KiB.
 *
 * What a call returns and leaves in each area is proved, for any bytes and areas (docs/MAP.md); not covered are the compiler's back end
 * and this header.
 */
#ifndef PATHS_H
#define PATHS_H

#include <stddef.h>
#include <stdint.h>

#ifdef __cplusplus
extern "C" {
#endif

enum {
    PATHS_ACCEPTED = 0,
    PATHS_TRUNCATED = 1,
    PATHS_UNEXPECTED = 2,
    PATHS_OUT_OF_RANGE = 3,
    PATHS_NOT_ASCENDING = 4,
    PATHS_WRONG_END = 5,
    PATHS_OPERANDS = 6,
    PATHS_UNNAMED_LINK = 11,
    PATHS_TOO_MANY = 12,
    PATHS_TOO_LONG = 13,
    PATHS_AREA_SHORT = 14,
    PATHS_WORK_SHORT = 15,
    PATHS_BREACH = 16
};

/* what a refusal is about: one of the files; the work at hand for 11 to 16 */
enum {
    PATHS_IN_SHEET = 1,
    PATHS_IN_QUESTION = 2,
    PATHS_IN_NARROWED = 3,
    PATHS_IN_REGISTER = 4,
    PATHS_IN_WORK = 5
};

/* sizes of areas for a register of n records */
#define PATHS_ROW_WORDS(n) (((size_t)(n) + 63) / 64)
#define PATHS_ANSWER_WORDS(n) ((size_t)(n) * PATHS_ROW_WORDS(n))
#define PATHS_ANSWER_WORK(n) (28 * PATHS_ANSWER_WORDS(n))
#define PATHS_NARROW_WORK ((size_t)8192)
#define PATHS_JOB_WORK(n) (PATHS_ANSWER_WORK(n) < PATHS_NARROW_WORK ? PATHS_NARROW_WORK : PATHS_ANSWER_WORK(n))
#define PATHS_FILE_BYTES ((size_t)50821)

/* Does the register obey the sheet? */
uint64_t paths_check(const uint8_t *sheet, size_t sheet_length,
                     const uint8_t *register_file, size_t register_length,
                     uint64_t *first, uint64_t *second);

/* Narrows a question by a sheet, and writes the file of the narrowed question. */
uint64_t paths_narrow(const uint8_t *sheet, size_t sheet_length,
                      const uint8_t *question, size_t question_length,
                      uint64_t *work, size_t work_length,
                      uint8_t *file, size_t file_length,
                      uint64_t *first, uint64_t *second);

/* The bytes that paths_narrow needs for its file, without any area for it: its members and bytes, or the refusal that it would give.
 * With the same files and work area, paths_narrow lent that many bytes or more is accepted and tells the same; lent fewer, it is refused
 * with 14, place that many. */
uint64_t paths_narrow_bytes(const uint8_t *sheet, size_t sheet_length,
                            const uint8_t *question, size_t question_length,
                            uint64_t *work, size_t work_length,
                            uint64_t *first, uint64_t *second);

/* Shortens a question, and writes the file of the shortened one: a chain of a chain becomes that chain; a chain that is a branch's test
 * becomes its operand, and a join that is one a branch right; until none of this fits. The shortened question has the same pairs on every
 * register, is never longer, and shortened again is left as it is. Refusals: those of the question, then 14. */
uint64_t paths_shorten(const uint8_t *question, size_t question_length,
                       uint8_t *file, size_t file_length,
                       uint64_t *first, uint64_t *second);

/* The pairs of a question on a register. */
uint64_t paths_answer(const uint8_t *question, size_t question_length,
                      const uint8_t *register_file, size_t register_length,
                      uint64_t *work, size_t work_length,
                      uint64_t *answer, size_t answer_length,
                      uint64_t *first, uint64_t *second);

/* The pairs of a narrowed question on a register. */
uint64_t paths_answer_narrowed(const uint8_t *narrowed, size_t narrowed_length,
                               const uint8_t *register_file, size_t register_length,
                               uint64_t *work, size_t work_length,
                               uint64_t *answer, size_t answer_length,
                               uint64_t *first, uint64_t *second);

/* The whole job: narrows the question by the sheet, checks the register, writes the file and its answer on the register. Where it is
 * accepted the answer is also that of the question itself. */
uint64_t paths_job(const uint8_t *sheet, size_t sheet_length,
                   const uint8_t *question, size_t question_length,
                   const uint8_t *register_file, size_t register_length,
                   uint64_t *work, size_t work_length,
                   uint64_t *answer, size_t answer_length,
                   uint8_t *file, size_t file_length,
                   uint64_t *first, uint64_t *second);

#ifdef __cplusplus
}
#endif

#endif
