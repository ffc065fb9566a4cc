/* Times the library's calls and its peers on the inputs that fleet.py made, and compares what they give.
 *
 *     driver FOLDER RUNS
 *
 * reads FOLDER/list. A line `answer N NAME` asks question-NAME on register-N by sheet; a line `closure N NAME` asks
 * closure-NAME.question on closure-NAME-N, by no sheet; a line `narrow NAME` narrows narrow-NAME.question by narrow-NAME.sheet. Each
 * timing of a line is taken in turn, RUNS times over (11 times where it takes long), so that all of them meet the same disturbances, and
 * the times of one round can be compared; before each timed run the same call runs untimed (WARM_RUNS times, never where it takes long),
 * so that caches are as that call leaves them, and the work words are zero, as each call leaves them.
 * Prints a line for each timing, `answer,N,name,peer,call,` and its times in microseconds, round by round, with blanks between; and for each
 * question `size,N,name,members,pairs,` and both numbers. Exits with 1 where two peers differ. */
#include "paths.h"
#include "peers.h"

#include <stdbool.h>
#include <stdio.h>
#include <stdlib.h>
#include <string.h>
#include <time.h>

enum { MOST_RUNS = 1001, LONG_RUNS = 11, WARM_RUNS = 3, FILE_ROOM = 70149, WORDS = 1024 * 16 };
static const double LONG_CALL = 20000; /* microseconds from which a call is run LONG_RUNS times */

typedef struct {
    uint8_t at[FILE_ROOM];
    size_t length;
} File;

static File sheet, question, reg, narrowed;
static size_t records;
static uint64_t work[28 * WORDS];
static uint64_t answer[WORDS];
static uint8_t file[PATHS_FILE_BYTES];
static size_t written;
static uint64_t first, second;

static void fail(const char *what, const char *name)
{
    fprintf(stderr, "bench: %s: %s\n", what, name);
    exit(1);
}

static void accepted(uint64_t result)
{
    if (result != PATHS_ACCEPTED)
        fail("the library refused", "see the question's line in the list");
}

/* The calls that are timed. Each leaves its result in `answer`, or in `file` and `written`. */

static void clear_answer_work(void) { memset(work, 0, PATHS_ANSWER_WORK(records) * 8); __asm__ volatile("" : : "r"(work) : "memory"); }

static void library_check(void) { accepted(paths_check(sheet.at, sheet.length, reg.at, reg.length, &first, &second)); }
static void library_narrow(void)
{
    accepted(paths_narrow(sheet.at, sheet.length, question.at, question.length, work, PATHS_NARROW_WORK, file, sizeof file, &first, &second));
    written = second;
}
static void library_plain(void)
{
    accepted(paths_answer(question.at, question.length, reg.at, reg.length, work, PATHS_ANSWER_WORK(records), answer, WORDS, &first, &second));
}
static void library_narrowed(void)
{
    accepted(paths_answer_narrowed(narrowed.at, narrowed.length, reg.at, reg.length, work, PATHS_ANSWER_WORK(records), answer, WORDS, &first, &second));
}
static void library_job(void)
{
    accepted(paths_job(sheet.at, sheet.length, question.at, question.length, reg.at, reg.length, work, PATHS_JOB_WORK(records), answer,
                       WORDS, file, sizeof file, &first, &second));
    written = second;
}

#define HAND_CALLS(name)                                                                                                              \
    static void name##_narrow_call(void) { written = name##_narrow(sheet.at, sheet.length, question.at, question.length, work, file); } \
    static void name##_plain_call(void) { name##_plain(question.at, question.length, reg.at, reg.length, work, answer); }             \
    static void name##_narrowed_call(void) { name##_narrowed(narrowed.at, narrowed.length, reg.at, reg.length, work, answer); }       \
    static void name##_job_call(void)                                                                                                 \
    {                                                                                                                                 \
        written = name##_job(sheet.at, sheet.length, question.at, question.length, reg.at, reg.length, work, answer, file);           \
    }
#define STORE_CALLS(name)                                                                                                             \
    static void name##_ask_call(void) { name##_ask(question.at, question.length, answer); }                                           \
    static void name##_whole_call(void)                                                                                               \
    {                                                                                                                                 \
        name##_load(reg.at, reg.length);                                                                                              \
        name##_ask(question.at, question.length, answer);                                                                             \
    }

static void warshall_plain_call(void) { warshall_plain(question.at, question.length, reg.at, reg.length, work, answer); }
HAND_CALLS(c)
#ifdef WITH_RUST
HAND_CALLS(rust)
#endif
#ifdef WITH_GRAPHBLAS
STORE_CALLS(graphblas)
#endif
#ifdef WITH_SQLITE
STORE_CALLS(sqlite)
#endif

typedef enum { GIVES_NOTHING, GIVES_FILE, GIVES_ANSWER, GIVES_BOTH } Gives;

typedef struct {
    const char *peer, *call;
    void (*run)(void);
    Gives gives;
    double times[MOST_RUNS];
    size_t runs;
} Timing;

static Timing answers[] = {
    {"-", "clear", clear_answer_work, GIVES_NOTHING, {0}, 0},
    {"library", "check", library_check, GIVES_NOTHING, {0}, 0},
    {"library", "narrow", library_narrow, GIVES_FILE, {0}, 0},
    {"library", "plain", library_plain, GIVES_ANSWER, {0}, 0},
    {"library", "narrowed", library_narrowed, GIVES_ANSWER, {0}, 0},
    {"library", "job", library_job, GIVES_BOTH, {0}, 0},
    {"c", "narrow", c_narrow_call, GIVES_FILE, {0}, 0},
    {"c", "plain", c_plain_call, GIVES_ANSWER, {0}, 0},
    {"c", "narrowed", c_narrowed_call, GIVES_ANSWER, {0}, 0},
    {"c", "job", c_job_call, GIVES_BOTH, {0}, 0},
#ifdef WITH_RUST
    {"rust", "narrow", rust_narrow_call, GIVES_FILE, {0}, 0},
    {"rust", "plain", rust_plain_call, GIVES_ANSWER, {0}, 0},
    {"rust", "narrowed", rust_narrowed_call, GIVES_ANSWER, {0}, 0},
    {"rust", "job", rust_job_call, GIVES_BOTH, {0}, 0},
#endif
#ifdef WITH_GRAPHBLAS
    {"graphblas", "whole", graphblas_whole_call, GIVES_ANSWER, {0}, 0},
    {"graphblas", "ask", graphblas_ask_call, GIVES_ANSWER, {0}, 0},
#endif
#ifdef WITH_SQLITE
    {"sqlite", "whole", sqlite_whole_call, GIVES_ANSWER, {0}, 0},
    {"sqlite", "ask", sqlite_ask_call, GIVES_ANSWER, {0}, 0},
#endif
    {"library", "job again", library_job, GIVES_BOTH, {0}, 0}, /* the same timing once more: its difference is the machine's noise */
};

static Timing closures[] = {
    {"-", "clear", clear_answer_work, GIVES_NOTHING, {0}, 0},
    {"library", "plain", library_plain, GIVES_ANSWER, {0}, 0},
    {"c", "plain", c_plain_call, GIVES_ANSWER, {0}, 0},
#ifdef WITH_RUST
    {"rust", "plain", rust_plain_call, GIVES_ANSWER, {0}, 0},
#endif
    {"warshall", "plain", warshall_plain_call, GIVES_ANSWER, {0}, 0},
};

static Timing narrowings[] = {
    {"library", "narrow", library_narrow, GIVES_FILE, {0}, 0},
    {"c", "narrow", c_narrow_call, GIVES_FILE, {0}, 0},
#ifdef WITH_RUST
    {"rust", "narrow", rust_narrow_call, GIVES_FILE, {0}, 0},
#endif
};

static double now(void)
{
    struct timespec t;
    clock_gettime(CLOCK_MONOTONIC, &t);
    return t.tv_sec * 1e6 + t.tv_nsec / 1e3;
}

/* What the library gave, against which every other result is held. */
static uint64_t due_answer[WORDS];
static size_t due_bytes;
static uint8_t due_file[PATHS_FILE_BYTES];

static void compare(const Timing *t, const char *name)
{
    if ((t->gives == GIVES_ANSWER || t->gives == GIVES_BOTH) && memcmp(answer, due_answer, PATHS_ANSWER_WORDS(records) * 8) != 0)
        fail(t->peer, "other pairs than the library's");
    if ((t->gives == GIVES_FILE || t->gives == GIVES_BOTH) && (written != due_bytes || memcmp(file, due_file, written) != 0))
        fail(t->peer, name);
}

/* One run of a timing, with the answer and the file marked before it, so that what an earlier run left cannot pass for its result. */
static void run_once(Timing *t, const char *name)
{
    for (int warm = 0; warm < WARM_RUNS && (t->runs == 0 || t->times[0] < LONG_CALL); warm++)
        t->run();
    memset(answer, 0x55, PATHS_ANSWER_WORDS(records) * 8);
    memset(file, 0x55, due_bytes);
    double start = now();
    t->run();
    t->times[t->runs++] = now() - start;
    compare(t, name);
}

static void measure(Timing *timings, size_t count, size_t runs, const char *what, const char *name)
{
    for (size_t i = 0; i < count; i++)
        timings[i].runs = 0;
    for (size_t r = 0; r < runs; r++)
        for (size_t i = 0; i < count; i++)
            if (r < LONG_RUNS || timings[i].times[0] < LONG_CALL)
                run_once(&timings[i], name);
    for (size_t i = 0; i < count; i++) {
        printf("%s,%zu,%s,%s,%s,", what, records, name, timings[i].peer, timings[i].call);
        for (size_t r = 0; r < timings[i].runs; r++)
            printf(r + 1 < timings[i].runs ? "%.2f " : "%.2f\n", timings[i].times[r]);
    }
    fflush(stdout);
}

static void load(File *f, const char *folder, const char *format, const char *name)
{
    char part[256], path[512];
    snprintf(part, sizeof part, format, name);
    snprintf(path, sizeof path, "%s/%s", folder, part);
    FILE *in = fopen(path, "rb");
    if (!in)
        fail("cannot open", path);
    f->length = fread(f->at, 1, FILE_ROOM, in);
    fclose(in);
}

/* Takes the library's file as what is due; it has as many bytes as are told beforehand. */
static void narrow_first(void)
{
    accepted(paths_narrow_bytes(sheet.at, sheet.length, question.at, question.length, work, PATHS_NARROW_WORK, &first, &second));
    due_bytes = second;
    library_narrow();
    if (written != due_bytes)
        fail("the library's file has other bytes than were told beforehand", "see the question's line in the list");
    memcpy(due_file, file, written);
    memcpy(narrowed.at, file, written);
    narrowed.length = written;
}

/* Takes the library's pairs as what is due; how many they are. */
static size_t answer_first(void)
{
    size_t pairs = 0;
    library_plain();
    memcpy(due_answer, answer, sizeof due_answer);
    for (size_t i = 0; i < PATHS_ANSWER_WORDS(records); i++)
        pairs += __builtin_popcountll(answer[i]);
    return pairs;
}

static void answer_line(const char *folder, const char *size, const char *name, size_t runs)
{
    load(&sheet, folder, "%s", "sheet");
    load(&reg, folder, "register-%s", size);
    load(&question, folder, "question-%s", name);
    records = strtoul(size, NULL, 10);
    narrow_first();
    size_t members = first;
    printf("size,%zu,%s,members,pairs,%zu %zu\n", records, name, members, answer_first());
    measure(answers, sizeof answers / sizeof answers[0], runs, "answer", name);
}

/* Its timings are told as those of closure-NAME, since a question may have the same name. */
static void closure_line(const char *folder, const char *size, const char *name, size_t runs)
{
    char full[80], file_name[160];
    snprintf(full, sizeof full, "closure-%s", name);
    snprintf(file_name, sizeof file_name, "%s-%s", full, size);
    load(&reg, folder, "%s", file_name);
    load(&question, folder, "%s.question", full);
    records = strtoul(size, NULL, 10);
    due_bytes = 0;
    answer_first();
    measure(closures, sizeof closures / sizeof closures[0], runs, "closure", full);
}

static void narrow_line(const char *folder, const char *name, size_t runs)
{
    load(&sheet, folder, "narrow-%s.sheet", name);
    load(&question, folder, "narrow-%s.question", name);
    records = 0;
    narrow_first();
    printf("size,0,%s,members,bytes,%zu %zu\n", name, (size_t)first, written);
    measure(narrowings, sizeof narrowings / sizeof narrowings[0], runs, "narrow", name);
}

int main(int count, char **words)
{
    char path[512], what[16], x[64], y[64], line[256];
    if (count != 3)
        fail("usage", "driver FOLDER RUNS");
    size_t runs = strtoul(words[2], NULL, 10);
    runs = runs < 1 ? 1 : runs > MOST_RUNS ? MOST_RUNS : runs;
    snprintf(path, sizeof path, "%s/list", words[1]);
    FILE *list = fopen(path, "r");
    if (!list)
        fail("cannot open", path);
#ifdef WITH_GRAPHBLAS
    graphblas_start();
#endif
#ifdef WITH_SQLITE
    sqlite_start();
#endif
    while (fgets(line, sizeof line, list)) {
        int fields = sscanf(line, "%15s %63s %63s", what, x, y);
        if (fields == 3 && strcmp(what, "closure") == 0)
            closure_line(words[1], x, y, runs);
        else if (fields == 3)
            answer_line(words[1], x, y, runs);
        else if (fields == 2)
            narrow_line(words[1], x, runs);
    }
    fclose(list);
    return 0;
}
