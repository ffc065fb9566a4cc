/* The cases of the specification, 1 to 13, and those of shortening, through libpaths.a: the file that is written, the answers, each
 * refusal with its place and file, and every element of every area. Prints a line for each case, and at the end 'N passed, M failed';
 * ends with 0 if none failed. Files and areas lie in blocks of exactly their lengths, so that a memory checker sees a step outside one. */
#include <stdbool.h>
#include <stdio.h>
#include <stdlib.h>
#include <string.h>

#include "paths.h"

/* ---- files */

typedef struct {
    uint8_t at[PATHS_FILE_BYTES];
    size_t length;
} File;

/* A symbol: 1 more than its code, so that 0 ends a list; a join through a kind set: THROUGH more than the set. */
typedef uint64_t Symbol;
#define FORWARD(link) (1 + (link))
#define REVERSE(link) (65 + (link))
#define THROUGH(set) (1000 + (uint64_t)(set))
enum { JOIN = 129, UNION, BOTH, BRANCH_RIGHT, BRANCH_LEFT, CHAIN };
enum { MOST_SYMBOLS = 49 };

typedef struct {
    uint64_t from, to;
    Symbol symbols[MOST_SYMBOLS];
} Member;

static void put(File *f, uint64_t number, int bytes)
{
    while (bytes-- > 0)
        f->at[f->length++] = (uint8_t)(number >> 8 * bytes);
}

static void put_head(File *f, int tag, int length)
{
    put(f, (uint64_t)tag, 1);
    put(f, (uint64_t)length, 2);
}

static void put_symbol(File *f, Symbol s)
{
    if (s >= THROUGH(0)) {
        put_head(f, 0x45, 8);
        put(f, s - THROUGH(0), 8);
    } else if (s >= JOIN) {
        put_head(f, 0x44, 1);
        put(f, s - 1, 1);
    } else {
        put_head(f, 0x43, 2);
        put(f, (s - 1) / 64, 1);
        put(f, (s - 1) % 64, 1);
    }
}

static size_t count_of(const Symbol *symbols)
{
    size_t n = 0;
    while (n < MOST_SYMBOLS && symbols[n] != 0)
        n++;
    return n;
}

static void put_symbols(File *f, const Symbol *symbols)
{
    for (size_t i = 0; i < count_of(symbols); i++)
        put_symbol(f, symbols[i]);
}

static void question_file(File *f, const Symbol *symbols)
{
    f->length = 0;
    put_head(f, 0x21, 1);
    put(f, count_of(symbols), 1);
    put_symbols(f, symbols);
}

static void narrowed_file(File *f, const Member *members, size_t count)
{
    f->length = 0;
    put_head(f, 0x41, 2);
    put(f, count, 2);
    for (size_t i = 0; i < count; i++) {
        put_head(f, 0x42, 17);
        put(f, count_of(members[i].symbols), 1);
        put(f, members[i].from, 8);
        put(f, members[i].to, 8);
        put_symbols(f, members[i].symbols);
    }
}

static void sheet_head(File *f, int kinds, int links)
{
    f->length = 0;
    put_head(f, 0x11, 2);
    put(f, (uint64_t)kinds, 1);
    put(f, (uint64_t)links, 1);
}

static void put_triple(File *f, int from, int link, int to)
{
    put_head(f, 0x12, 3);
    put(f, (uint64_t)from, 1);
    put(f, (uint64_t)link, 1);
    put(f, (uint64_t)to, 1);
}

static void put_link(File *f, int from, int link, int to)
{
    put_head(f, 0x33, 5);
    put(f, (uint64_t)from, 2);
    put(f, (uint64_t)link, 1);
    put(f, (uint64_t)to, 2);
}

/* The head, and the kinds, one digit each, in turn. */
static void register_head(File *f, const char *kinds, int records, int links)
{
    f->length = 0;
    put_head(f, 0x31, 4);
    put(f, (uint64_t)records, 2);
    put(f, (uint64_t)links, 2);
    for (int i = 0; i < records; i++) {
        put_head(f, 0x32, 1);
        put(f, (uint64_t)(kinds[(size_t)i % strlen(kinds)] - '0'), 1);
    }
}

/* ---- what is expected */

static const char *part; /* what runs */
static int faults;       /* in it */
static int passed, failed;

static void expect(bool holds, const char *what)
{
    if (!holds) {
        printf("%s: not as due: %s\n", part, what);
        faults++;
    }
}

static void begin(const char *name)
{
    part = name;
    faults = 0;
}

static void end(void)
{
    printf("%s: %s\n", part, faults == 0 ? "passed" : "failed");
    *(faults == 0 ? &passed : &failed) += 1;
}

typedef struct {
    uint64_t number, first, second;
} Told;

static const Told unset = {99, 99, 99};

static Told told(uint64_t number, uint64_t first, uint64_t second)
{
    Told t = {number, first, second};
    return t;
}

static bool same_told(Told a, Told b)
{
    return a.number == b.number && a.first == b.first && a.second == b.second;
}

/* ---- areas: each element is marked before the call */

typedef struct {
    uint64_t *at;
    size_t length;
} Words;

typedef struct {
    uint8_t *at;
    size_t length;
} Bytes;

/* A block is never null. */
static void *block(size_t bytes)
{
    void *made = malloc(bytes == 0 ? 1 : bytes);
    if (made == NULL)
        exit(2);
    return made;
}

static Bytes lent(const File *f)
{
    Bytes b = {block(f->length), f->length};
    memcpy(b.at, f->at, f->length);
    return b;
}

static Words marked_words(size_t length)
{
    Words w = {block(8 * length), length};
    for (size_t i = 0; i < length; i++)
        w.at[i] = ~(uint64_t)i;
    return w;
}

static Bytes marked_bytes(size_t length)
{
    Bytes b = {block(length), length};
    for (size_t i = 0; i < length; i++)
        b.at[i] = (uint8_t)~i;
    return b;
}

/* These words, or 0 where there are none, and then the marks. */
static bool words_are(Words w, const uint64_t *due, size_t count)
{
    for (size_t i = 0; i < w.length; i++)
        if (w.at[i] != (i >= count ? ~(uint64_t)i : due == NULL ? 0 : due[i]))
            return false;
    return true;
}

static bool bytes_are(Bytes b, const uint8_t *due, size_t count)
{
    for (size_t i = 0; i < b.length; i++)
        if (b.at[i] != (i >= count ? (uint8_t)~i : due[i]))
            return false;
    return true;
}

/* Zero up to the need; untouched by a file's refusal and by 15. */
static void expect_work(Words work, Told due, size_t need)
{
    bool before = due.number != PATHS_ACCEPTED && (due.second != PATHS_IN_WORK || due.number == PATHS_WORK_SHORT);
    expect(words_are(work, NULL, before ? 0 : need), "work words");
}

static void expect_file(Bytes file, Told due, const File *written)
{
    bool some = due.number == PATHS_ACCEPTED;
    expect(bytes_are(file, some ? written->at : NULL, some ? written->length : 0), "bytes of the file");
}

static void expect_answer(Words answer, Told due, const uint64_t *words, size_t count)
{
    expect(words_are(answer, words, due.number == PATHS_ACCEPTED ? count : 0), "words of the answer");
}

/* ---- the calls, each with what is due */

static void check(const File *sheet, const File *reg, Told due)
{
    Bytes s = lent(sheet), r = lent(reg);
    Told t = unset;
    t.number = paths_check(s.at, s.length, r.at, r.length, &t.first, &t.second);
    expect(same_told(t, due), "outcome of the check");
    free(s.at);
    free(r.at);
}

static void narrow_bytes(const File *sheet, const File *question, size_t work_length, Told due)
{
    Bytes s = lent(sheet), q = lent(question);
    Words work = marked_words(work_length);
    Told t = unset;
    t.number = paths_narrow_bytes(s.at, s.length, q.at, q.length, work.at, work.length, &t.first, &t.second);
    expect(same_told(t, due), "bytes needed, beforehand");
    expect_work(work, due, PATHS_NARROW_WORK);
    free(s.at);
    free(q.at);
    free(work.at);
}

/* What is told beforehand is what narrowing tells, but for 14. */
static void narrow(const File *sheet, const File *question, size_t work_length, size_t room, Told due, const File *written)
{
    if (due.number != PATHS_AREA_SHORT)
        narrow_bytes(sheet, question, work_length, due);
    Bytes s = lent(sheet), q = lent(question), file = marked_bytes(room);
    Words work = marked_words(work_length);
    Told t = unset;
    t.number = paths_narrow(s.at, s.length, q.at, q.length, work.at, work.length, file.at, file.length, &t.first, &t.second);
    expect(same_told(t, due), "outcome of narrowing");
    expect_work(work, due, PATHS_NARROW_WORK);
    expect_file(file, due, written);
    free(s.at);
    free(q.at);
    free(file.at);
    free(work.at);
}

static void shorten(const File *question, size_t room, Told due, const File *written)
{
    Bytes q = lent(question), file = marked_bytes(room);
    Told t = unset;
    t.number = paths_shorten(q.at, q.length, file.at, file.length, &t.first, &t.second);
    expect(same_told(t, due), "outcome of shortening");
    expect_file(file, due, written);
    free(q.at);
    free(file.at);
}

/* paths_answer and paths_answer_narrowed */
typedef uint64_t Answering(const uint8_t *, size_t, const uint8_t *, size_t, uint64_t *, size_t, uint64_t *, size_t, uint64_t *, uint64_t *);

static size_t records_of(const File *reg)
{
    return reg->length < 5 ? 0 : (size_t)reg->at[3] * 256 + reg->at[4];
}

static void answer(Answering *call, const File *asked, const File *reg, size_t work_length, size_t room, Told due, const uint64_t *words)
{
    size_t n = records_of(reg);
    Bytes a = lent(asked), r = lent(reg);
    Words work = marked_words(work_length), area = marked_words(room);
    Told t = unset;
    t.number = call(a.at, a.length, r.at, r.length, work.at, work.length, area.at, area.length, &t.first, &t.second);
    expect(same_told(t, due), call == paths_answer ? "outcome of the plain answer" : "outcome of the narrowed answer");
    expect_work(work, due, PATHS_ANSWER_WORK(n));
    expect_answer(area, due, words, PATHS_ANSWER_WORDS(n));
    free(a.at);
    free(r.at);
    free(work.at);
    free(area.at);
}

static void job(const File *sheet, const File *question, const File *reg, const size_t lengths[3], Told due, const uint64_t *words, const File *written)
{
    size_t n = records_of(reg);
    Bytes s = lent(sheet), q = lent(question), r = lent(reg), file = marked_bytes(lengths[2]);
    Words work = marked_words(lengths[0]), area = marked_words(lengths[1]);
    Told t = unset;
    t.number = paths_job(s.at, s.length, q.at, q.length, r.at, r.length, work.at, work.length, area.at, area.length, file.at, file.length,
                         &t.first, &t.second);
    expect(same_told(t, due), "outcome of the whole job");
    expect_work(work, due, PATHS_JOB_WORK(n));
    expect_answer(area, due, words, PATHS_ANSWER_WORDS(n));
    expect_file(file, due, written);
    free(s.at);
    free(q.at);
    free(r.at);
    free(file.at);
    free(work.at);
    free(area.at);
}

/* The areas that the program lends. */
static const size_t program[3] = {8192, 256, 65536};

static void job_refuses(const File *sheet, const File *question, const File *reg, Told due)
{
    job(sheet, question, reg, program, due, NULL, NULL);
}

/* The areas as long as needed, and longer. */
static void narrow_accepts(const File *sheet, const File *question, size_t members, const File *written)
{
    Told due = told(PATHS_ACCEPTED, members, written->length);
    narrow(sheet, question, PATHS_NARROW_WORK, written->length, due, written);
    narrow(sheet, question, PATHS_NARROW_WORK + 3, PATHS_FILE_BYTES, due, written);
}

static void answer_accepts(Answering *call, const File *asked, const File *reg, const uint64_t *words)
{
    size_t n = records_of(reg);
    answer(call, asked, reg, PATHS_ANSWER_WORK(n), PATHS_ANSWER_WORDS(n), told(PATHS_ACCEPTED, 0, 0), words);
    answer(call, asked, reg, PATHS_ANSWER_WORK(n) + 3, PATHS_ANSWER_WORDS(n) + 5, told(PATHS_ACCEPTED, 0, 0), words);
}

static void job_accepts(const File *sheet, const File *question, const File *reg, size_t members, const uint64_t *words, const File *written)
{
    size_t n = records_of(reg);
    const size_t exact[3] = {PATHS_JOB_WORK(n), PATHS_ANSWER_WORDS(n), written->length};
    Told due = told(PATHS_ACCEPTED, members, written->length);
    job(sheet, question, reg, exact, due, words, written);
    job(sheet, question, reg, program, due, words, written);
}

/* ---- the sheet, the register and the questions of the cases */

enum { CARRIES = FORWARD(0), LOADS = FORWARD(1), REPLACES = FORWARD(2), SEALED = FORWARD(3), UNDER = FORWARD(4), SEALED_REVERSE = REVERSE(3) };
enum { CAB = 1, METER = 2, CARD = 4, SHOP = 8, FLEET = 16, DISTRICT = 32 };

static File sheet, reg, breaking, none, question, narrowed, empty; /* none: a register without records */

static void case_files(void)
{
    static const int triples[7][3] = {{0, 0, 1}, {0, 3, 3}, {0, 4, 4}, {1, 1, 2}, {1, 3, 3}, {2, 2, 2}, {4, 4, 5}};
    static const int links[7][3] = {{0, 0, 1}, {0, 3, 2}, {0, 4, 3}, {1, 3, 2}, {3, 4, 4}, {4, 4, 3}, {5, 4, 3}};
    enum { BREAKING = 5 }; /* the link of case 12 */
    sheet_head(&sheet, 6, 5);
    for (int i = 0; i < 7; i++)
        put_triple(&sheet, triples[i][0], triples[i][1], triples[i][2]);
    register_head(&reg, "013450", 6, 6);
    register_head(&breaking, "013450", 6, 7);
    register_head(&none, "0", 0, 0);
    for (int i = 0; i < 7; i++) {
        put_link(&breaking, links[i][0], links[i][1], links[i][2]);
        if (i != BREAKING)
            put_link(&reg, links[i][0], links[i][1], links[i][2]);
    }
}

/* What is asked, the members due, and the pairs due on the register of case 11, two digits each. */
typedef struct {
    const char *name;
    Symbol question[5];
    size_t count;
    Member members[2];
    const char *pairs;
} Case;

static const Case cases[10] = {
    {"case 1, carries/sealed", {CARRIES, SEALED, JOIN}, 1, {{CAB, SHOP, {CARRIES, SEALED, THROUGH(METER)}}}, "02"},
    {"case 2, sealed", {SEALED}, 1, {{CAB | METER, SHOP, {SEALED}}}, "0212"},
    {"case 3, reverse sealed", {SEALED_REVERSE}, 1, {{SHOP, CAB | METER, {SEALED_REVERSE}}}, "2021"},
    {"case 4, chain of under",
     {UNDER, CHAIN},
     2,
     {{CAB | FLEET, FLEET | DISTRICT, {UNDER}}, {CAB, DISTRICT, {UNDER, UNDER, THROUGH(FLEET)}}},
     "0304345354"},
    {"case 5, chain of replaces", {REPLACES, CHAIN}, 1, {{CARD, CARD, {REPLACES, CHAIN}}}, ""},
    {"case 6, loads/chain of replaces", {LOADS, REPLACES, CHAIN, JOIN}, 1, {{METER, CARD, {LOADS, REPLACES, CHAIN, THROUGH(CARD)}}}, ""},
    {"case 7, carries[sealed]", {CARRIES, SEALED, BRANCH_RIGHT}, 1, {{CAB, METER, {CARRIES, SEALED, BRANCH_RIGHT}}}, "01"},
    {"case 8, carries/replaces", {CARRIES, REPLACES, JOIN}, 0, {{0, 0, {0}}}, ""},
    {"case 9, carries both sealed", {CARRIES, SEALED, BOTH}, 0, {{0, 0, {0}}}, ""},
    {"case 10, chain of sealed/reverse sealed",
     {SEALED, SEALED_REVERSE, JOIN, CHAIN},
     1,
     {{CAB | METER, CAB | METER, {SEALED, SEALED_REVERSE, JOIN, CHAIN}}},
     "00011011"},
};

/* Words of an answer on six records, from pairs of digits. */
static const uint64_t *six_rows(const char *pairs)
{
    static uint64_t rows[6];
    memset(rows, 0, sizeof rows);
    for (; *pairs != 0; pairs += 2)
        rows[pairs[0] - '0'] |= (uint64_t)1 << (pairs[1] - '0');
    return rows;
}

/* The question and the file of its members. */
static void take(const Case *c)
{
    question_file(&question, c->question);
    narrowed_file(&narrowed, c->members, c->count);
}

static void starred(const Case *c)
{
    begin(c->name);
    take(c);
    narrow_accepts(&sheet, &question, c->count, &narrowed);
    answer_accepts(paths_answer, &question, &reg, six_rows(c->pairs));
    answer_accepts(paths_answer_narrowed, &narrowed, &reg, six_rows(c->pairs));
    job_accepts(&sheet, &question, &reg, c->count, six_rows(c->pairs), &narrowed);
}

static void case_1(void)
{
    static const uint8_t printed[46] = {0x41, 0, 2, 0, 1, 0x42, 0, 0x11, 3, 0, 0, 0, 0, 0, 0, 0, 1, 0, 0, 0, 0, 0, 0, 0, 8, 0x43,
                                        0,    2, 0, 0, 0x43, 0, 2,    0, 3, 0x45, 0, 8, 0, 0, 0, 0, 0, 0, 0, 2};
    starred(&cases[0]);
    expect(narrowed.length == 46 && memcmp(narrowed.at, printed, 46) == 0, "the 46 bytes as the specification prints them");
    end();
}

/* So many records of kind 0 in a line. */
static void line_register(File *f, int records)
{
    register_head(f, "0", records, records - 1);
    for (int i = 0; i + 1 < records; i++)
        put_link(f, i, 0, i + 1);
}

/* The areas of the program: 128 records pass, 129 meet 15. One kind with a link to itself: the chain is kept. */
static void program_areas(void)
{
    static const Symbol chain[] = {FORWARD(0), CHAIN, 0};
    static const Member kept = {CAB, CAB, {FORWARD(0), CHAIN}};
    static File line, loop;
    static uint64_t rows[256];
    sheet_head(&loop, 1, 1);
    put_triple(&loop, 0, 0, 0);
    narrowed_file(&narrowed, &kept, 1);
    for (size_t s = 0; s < 128; s++)
        for (size_t t = s + 1; t < 128; t++)
            rows[s * 2 + t / 64] |= (uint64_t)1 << t % 64;
    question_file(&question, chain);
    line_register(&line, 128);
    answer(paths_answer, &question, &line, 8192, 256, told(PATHS_ACCEPTED, 0, 0), rows);
    job_accepts(&loop, &question, &line, 1, rows, &narrowed);
    line_register(&line, 129);
    answer(paths_answer, &question, &line, 8192, 256, told(PATHS_WORK_SHORT, 28 * 129 * 3, PATHS_IN_WORK), NULL);
    job_refuses(&loop, &question, &line, told(PATHS_WORK_SHORT, 28 * 129 * 3, PATHS_IN_WORK));
}

static void case_11(void)
{
    static File twice;
    begin("case 11, the register and the program's areas");
    check(&sheet, &reg, told(PATHS_ACCEPTED, 0, 0));
    sheet_head(&twice, 6, 5);
    put_triple(&twice, 0, 0, 1);
    put_triple(&twice, 0, 0, 1);
    check(&twice, &reg, told(PATHS_NOT_ASCENDING, 11, PATHS_IN_SHEET));
    take(&cases[3]);
    job_refuses(&twice, &question, &reg, told(PATHS_NOT_ASCENDING, 11, PATHS_IN_SHEET));
    program_areas();
    end();
}

static void case_12(void)
{
    begin("case 12, a register that does not obey");
    take(&cases[3]);
    answer_accepts(paths_answer, &question, &breaking, six_rows("0304333443445354"));
    answer_accepts(paths_answer_narrowed, &narrowed, &breaking, six_rows("0304345354"));
    check(&sheet, &breaking, told(PATHS_BREACH, 11, PATHS_IN_WORK));
    job_refuses(&sheet, &question, &breaking, told(PATHS_BREACH, 11, PATHS_IN_WORK));
    end();
}

static void symbols_32(void)
{
    Symbol chains[34] = {UNDER};
    for (int i = 1; i < 32; i++)
        chains[i] = CHAIN;
    question_file(&question, chains);
    answer_accepts(paths_answer, &question, &reg, six_rows("0304345354"));
    chains[32] = CHAIN;
    question_file(&question, chains);
    answer(paths_answer, &question, &reg, 168, 6, told(PATHS_OUT_OF_RANGE, 0, PATHS_IN_QUESTION), NULL);
    job_refuses(&sheet, &question, &reg, told(PATHS_OUT_OF_RANGE, 0, PATHS_IN_QUESTION));
}

/* One link with so many permitted pairs, from kinds 0, 1, 2. */
static void pairs_sheet(File *f, int pairs)
{
    sheet_head(f, 64, 1);
    for (int i = 0; i < pairs; i++)
        put_triple(f, i / 64, 0, i % 64);
}

static void pairs_128(void)
{
    static const Symbol step[] = {FORWARD(0), 0};
    static const Member all = {3, ~(uint64_t)0, {FORWARD(0)}};
    static File crowd;
    question_file(&question, step);
    narrowed_file(&narrowed, &all, 1);
    pairs_sheet(&crowd, 128);
    narrow_accepts(&crowd, &question, 1, &narrowed);
    job_accepts(&crowd, &question, &none, 1, NULL, &narrowed);
    pairs_sheet(&crowd, 129);
    narrow(&crowd, &question, 8192, 400, told(PATHS_TOO_MANY, 0, PATHS_IN_WORK), NULL);
    job_refuses(&crowd, &question, &none, told(PATHS_TOO_MANY, 0, PATHS_IN_WORK));
}

/* Of a walk of so many hops of links 0 and 1 that ends in kind 22, and then link 3 and a chain of link 2. */
static Member walk(int hops)
{
    Member m = {(uint64_t)1 << (22 - 2 * hops), 1 << 22, {0}};
    Symbol *s = m.symbols;
    for (int kind = 22 - 2 * hops; kind < 22; kind += 2) {
        *s++ = FORWARD(0);
        *s++ = FORWARD(1);
        *s++ = THROUGH(1 << (kind + 1));
        if (s - m.symbols > 3)
            *s++ = THROUGH(1 << kind);
    }
    *s++ = FORWARD(3);
    *s++ = FORWARD(2);
    *s++ = CHAIN;
    *s++ = THROUGH(1 << 22);
    *s++ = THROUGH(1 << 22);
    return m;
}

/* A chain over a line of 11 hops has paths of up to 43 symbols; with a join, 4 symbols more make 48, and 5 make 49. */
static void symbols_48(void)
{
    static const Symbol passes[] = {FORWARD(0), FORWARD(1), JOIN, CHAIN, FORWARD(3), FORWARD(2), CHAIN, JOIN, JOIN, 0};
    static const Symbol fails[] = {FORWARD(0), FORWARD(1), JOIN, CHAIN, FORWARD(3), FORWARD(2), JOIN, FORWARD(2), JOIN, JOIN, 0};
    static File line;
    static Member members[11];
    sheet_head(&line, 23, 4);
    for (int kind = 0; kind < 22; kind++)
        put_triple(&line, kind, kind % 2, kind + 1);
    put_triple(&line, 22, 2, 22);
    put_triple(&line, 22, 3, 22);
    for (int i = 0; i < 11; i++)
        members[i] = walk(11 - i);
    expect(count_of(members[0].symbols) == 48, "a path of 48 symbols");
    narrowed_file(&narrowed, members, 11);
    question_file(&question, passes);
    narrow_accepts(&line, &question, 11, &narrowed);
    job_accepts(&line, &question, &none, 11, NULL, &narrowed);
    question_file(&question, fails);
    narrow(&line, &question, 8192, 20000, told(PATHS_TOO_LONG, 9, PATHS_IN_WORK), NULL);
    job_refuses(&line, &question, &none, told(PATHS_TOO_LONG, 9, PATHS_IN_WORK));
}

static void empty_files(void)
{
    take(&cases[3]);
    check(&empty, &reg, told(PATHS_WRONG_END, 0, PATHS_IN_SHEET));
    check(&sheet, &empty, told(PATHS_WRONG_END, 0, PATHS_IN_REGISTER));
    narrow(&empty, &question, 8192, 100, told(PATHS_WRONG_END, 0, PATHS_IN_SHEET), NULL);
    narrow(&sheet, &empty, 8192, 100, told(PATHS_WRONG_END, 0, PATHS_IN_QUESTION), NULL);
    answer(paths_answer, &empty, &reg, 168, 6, told(PATHS_WRONG_END, 0, PATHS_IN_QUESTION), NULL);
    answer(paths_answer, &question, &empty, 168, 6, told(PATHS_WRONG_END, 0, PATHS_IN_REGISTER), NULL);
    answer(paths_answer_narrowed, &empty, &reg, 168, 6, told(PATHS_WRONG_END, 0, PATHS_IN_NARROWED), NULL);
    answer(paths_answer_narrowed, &narrowed, &empty, 168, 6, told(PATHS_WRONG_END, 0, PATHS_IN_REGISTER), NULL);
    job_refuses(&empty, &question, &reg, told(PATHS_WRONG_END, 0, PATHS_IN_SHEET));
    job_refuses(&sheet, &empty, &reg, told(PATHS_WRONG_END, 0, PATHS_IN_QUESTION));
    job_refuses(&sheet, &question, &empty, told(PATHS_WRONG_END, 0, PATHS_IN_REGISTER));
}

static void case_13(void)
{
    begin("case 13, edges");
    symbols_32();
    pairs_128();
    symbols_48();
    empty_files();
    end();
}

/* 14 and 15, which no case has: one element too few, or none at all. */
static void short_areas(bool bare)
{
    size_t bytes = narrowed.length;
    const size_t no_work[3] = {bare ? 0 : 8191, bare ? 0 : 6, bare ? 0 : bytes};
    const size_t no_answer[3] = {8192, bare ? 0 : 5, bare ? 0 : bytes};
    const size_t no_file[3] = {8192, 6, bare ? 0 : bytes - 1};
    narrow(&sheet, &question, no_work[0], no_work[2], told(PATHS_WORK_SHORT, 8192, PATHS_IN_WORK), NULL);
    narrow(&sheet, &question, no_file[0], no_file[2], told(PATHS_AREA_SHORT, bytes, PATHS_IN_WORK), NULL);
    narrow_bytes(&sheet, &question, no_file[0], told(PATHS_ACCEPTED, 2, bytes));
    answer(paths_answer, &question, &reg, bare ? 0 : 167, no_work[1], told(PATHS_WORK_SHORT, 168, PATHS_IN_WORK), NULL);
    answer(paths_answer, &question, &reg, 168, no_answer[1], told(PATHS_AREA_SHORT, 6, PATHS_IN_WORK), NULL);
    answer(paths_answer_narrowed, &narrowed, &reg, bare ? 0 : 167, no_work[1], told(PATHS_WORK_SHORT, 168, PATHS_IN_WORK), NULL);
    answer(paths_answer_narrowed, &narrowed, &reg, 168, no_answer[1], told(PATHS_AREA_SHORT, 6, PATHS_IN_WORK), NULL);
    job(&sheet, &question, &reg, no_work, told(PATHS_WORK_SHORT, 8192, PATHS_IN_WORK), NULL, NULL);
    job(&sheet, &question, &reg, no_answer, told(PATHS_AREA_SHORT, 6, PATHS_IN_WORK), NULL, NULL);
    job(&sheet, &question, &reg, no_file, told(PATHS_AREA_SHORT, bytes, PATHS_IN_WORK), NULL, NULL);
}

/* 11, which no case has, and which stands before 16. */
static void unnamed_link(void)
{
    static const Symbol unnamed[] = {UNDER, FORWARD(5), JOIN, 0};
    question_file(&question, unnamed);
    narrow(&sheet, &question, 8192, 100, told(PATHS_UNNAMED_LINK, 1, PATHS_IN_WORK), NULL);
    job_refuses(&sheet, &question, &reg, told(PATHS_UNNAMED_LINK, 1, PATHS_IN_WORK));
    job_refuses(&sheet, &question, &breaking, told(PATHS_UNNAMED_LINK, 1, PATHS_IN_WORK));
}

static void other_refusals(void)
{
    begin("areas too short, and a link without a name");
    take(&cases[3]);
    short_areas(false);
    short_areas(true);
    unnamed_link();
    end();
}

/* A question, and what it is shortened to. */
typedef struct {
    Symbol asked[12], shortened[12];
} Shortening;

#define P FORWARD(0)
#define Q FORWARD(1)
#define R REVERSE(2)
static const Shortening shortenings[] = {
    {{P, CHAIN, CHAIN, CHAIN}, {P, CHAIN}},
    {{P, Q, CHAIN, BRANCH_RIGHT}, {P, Q, BRANCH_RIGHT}},
    {{P, CHAIN, Q, BRANCH_LEFT}, {P, Q, BRANCH_LEFT}},
    {{P, Q, R, JOIN, BRANCH_RIGHT}, {P, Q, R, BRANCH_RIGHT, BRANCH_RIGHT}},
    {{P, Q, JOIN, R, BRANCH_LEFT}, {P, Q, BRANCH_RIGHT, R, BRANCH_LEFT}},
    /* the second operand of a join that is a test is a test, its first is none */
    {{P, Q, CHAIN, R, CHAIN, JOIN, CHAIN, BRANCH_RIGHT}, {P, Q, CHAIN, R, BRANCH_RIGHT, BRANCH_RIGHT}},
    /* what is no test stays, and so does what is below a union or a both inside one */
    {{P, CHAIN, Q, R, JOIN, CHAIN, BRANCH_LEFT}, {P, Q, R, JOIN, CHAIN, BRANCH_LEFT}},
    {{P, Q, CHAIN, Q, R, JOIN, UNION, BRANCH_RIGHT}, {P, Q, CHAIN, Q, R, JOIN, UNION, BRANCH_RIGHT}},
};

/* In an area of the bytes needed, of one more, of one fewer and of none; and once more. */
static void shortened(const Shortening *s)
{
    static File short_question;
    question_file(&question, s->asked);
    question_file(&short_question, s->shortened);
    size_t symbols = count_of(s->shortened), bytes = short_question.length;
    shorten(&question, bytes, told(PATHS_ACCEPTED, symbols, bytes), &short_question);
    shorten(&question, bytes + 1, told(PATHS_ACCEPTED, symbols, bytes), &short_question);
    shorten(&question, question.length, told(PATHS_ACCEPTED, symbols, bytes), &short_question);
    shorten(&question, bytes - 1, told(PATHS_AREA_SHORT, bytes, PATHS_IN_WORK), NULL);
    shorten(&question, 0, told(PATHS_AREA_SHORT, bytes, PATHS_IN_WORK), NULL);
    shorten(&short_question, bytes, told(PATHS_ACCEPTED, symbols, bytes), &short_question);
}

static void shortening(void)
{
    begin("questions shortened");
    for (size_t i = 0; i < sizeof shortenings / sizeof *shortenings; i++)
        shortened(&shortenings[i]);
    shorten(&empty, 100, told(PATHS_WRONG_END, 0, PATHS_IN_QUESTION), NULL);
    shorten(&empty, 0, told(PATHS_WRONG_END, 0, PATHS_IN_QUESTION), NULL);
    shorten(&sheet, 100, told(PATHS_UNEXPECTED, 0, PATHS_IN_QUESTION), NULL);
    end();
}

int main(void)
{
    case_files();
    case_1();
    for (int i = 1; i < 10; i++) {
        starred(&cases[i]);
        end();
    }
    case_11();
    case_12();
    case_13();
    other_refusals();
    shortening();
    printf("%d passed, %d failed\n", passed, failed);
    return failed == 0 ? 0 : 1;
}
