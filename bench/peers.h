/* What the bench runs beside libpaths.a. Each peer reads the same bytes as the library's calls, and leaves the answer's words as they do
 * (include/paths.h): bit t % 64 of word s * W + t / 64 is the pair (s, t). A peer trusts its files: it checks nothing and refuses nothing.
 */
#ifndef PEERS_H
#define PEERS_H

#include <stddef.h>
#include <stdint.h>

/* The library's own steps written by hand, without checks: hand.c is c_, hand.rs is rust_. Work words are left 0, as the library
 * leaves them: PATHS_ANSWER_WORK(n), PATHS_NARROW_WORK or PATHS_JOB_WORK(n) of them. A narrowing returns the bytes of the file that it
 * wrote, 0 where the question has a part with over 128 triples or a path of over 48 symbols. The job returns the same. */
#define HAND_PEER(name)                                                                                                               \
    void name##_plain(const uint8_t *question, size_t question_length, const uint8_t *register_file, size_t register_length,          \
                      uint64_t *work, uint64_t *answer);                                                                              \
    void name##_narrowed(const uint8_t *narrowed, size_t narrowed_length, const uint8_t *register_file, size_t register_length,       \
                         uint64_t *work, uint64_t *answer);                                                                           \
    size_t name##_narrow(const uint8_t *sheet, size_t sheet_length, const uint8_t *question, size_t question_length, uint64_t *work,  \
                         uint8_t *file);                                                                                              \
    size_t name##_job(const uint8_t *sheet, size_t sheet_length, const uint8_t *question, size_t question_length,                     \
                      const uint8_t *register_file, size_t register_length, uint64_t *work, uint64_t *answer, uint8_t *file)

HAND_PEER(c);
HAND_PEER(rust);

/* c_plain with Warshall's closure in place of the library's: what another way to close a relation is worth. */
void warshall_plain(const uint8_t *question, size_t question_length, const uint8_t *register_file, size_t register_length,
                    uint64_t *work, uint64_t *answer);

/* What a user would pick instead: a store that is loaded with the links of a register, and then asked. Start is called once, before the
 * clock runs; load builds the store anew from the register's bytes; ask leaves the question's pairs in the answer. */
#define STORE_PEER(name)                                                                                                              \
    void name##_start(void);                                                                                                          \
    void name##_load(const uint8_t *register_file, size_t register_length);                                                           \
    void name##_ask(const uint8_t *question, size_t question_length, uint64_t *answer)

STORE_PEER(graphblas);
STORE_PEER(sqlite);

#endif
