/* Path questions in SQLite: the links in a table in memory, and each question as one statement over it. */
#include "peers.h"

#include <sqlite3.h>
#include <stdarg.h>
#include <stdbool.h>
#include <stdio.h>
#include <stdlib.h>
#include <string.h>

enum { SYMBOLS = 32, TEXT = 8192 };
enum { STEP = 0, JOIN = 128, UNION, BOTH, BRANCH_RIGHT, BRANCH_LEFT, CHAIN };

static struct {
    sqlite3 *base;
    size_t n, w;
} store;

static void ok(int result)
{
    if (result != SQLITE_OK) {
        fprintf(stderr, "SQLite: %s\n", sqlite3_errmsg(store.base));
        abort();
    }
}

static void run(const char *statements)
{
    ok(sqlite3_exec(store.base, statements, NULL, NULL, NULL));
}

static unsigned two_bytes(const uint8_t *bytes)
{
    return (unsigned)bytes[0] << 8 | bytes[1];
}

/* In memory, without a journal, locks between threads or statistics of memory. */
void sqlite_start(void)
{
    ok(sqlite3_config(SQLITE_CONFIG_SINGLETHREAD));
    ok(sqlite3_config(SQLITE_CONFIG_MEMSTATUS, 0));
    ok(sqlite3_open(":memory:", &store.base));
    run("PRAGMA journal_mode=OFF; PRAGMA synchronous=OFF; PRAGMA locking_mode=EXCLUSIVE; PRAGMA temp_store=MEMORY;");
}

#define CREATE                                                                                                                        \
    "CREATE TABLE link(name INTEGER, source INTEGER, target INTEGER, PRIMARY KEY(name, source, target)) WITHOUT ROWID;"

static void insert(const uint8_t *link, const uint8_t *end)
{
    sqlite3_stmt *row;
    ok(sqlite3_prepare_v2(store.base, "INSERT INTO link VALUES(?, ?, ?)", -1, &row, NULL));
    for (; link < end; link += 8) {
        sqlite3_bind_int(row, 1, link[5]);
        sqlite3_bind_int(row, 2, (int)two_bytes(link + 3));
        sqlite3_bind_int(row, 3, (int)two_bytes(link + 6));
        sqlite3_step(row);
        ok(sqlite3_reset(row));
    }
    ok(sqlite3_finalize(row));
}

/* The index is made after the rows, which is faster. With ANALYZE the questions are no faster, and closures of steps slower. */
void sqlite_load(const uint8_t *register_file, size_t register_length)
{
    store.n = two_bytes(register_file + 3);
    store.w = (store.n + 63) / 64;
    run("BEGIN; DROP TABLE IF EXISTS link;" CREATE);
    insert(register_file + 7 + 4 * store.n, register_file + register_length);
    run("CREATE UNIQUE INDEX reverse ON link(name, target, source); COMMIT;");
}

/* The statement so far: symbol k is the table expression r<k>(s, t), over those of its operands. A step is inlined wherever it is used, so
 * that the index of its direction is; what is used once is left to SQLite, and what a closure uses twice it keeps in a table. */
typedef struct {
    char text[TEXT];
    int length;
} statement;

/* An operand: its symbol's place, and its operator or STEP. */
typedef struct {
    int k, code;
} operand;

static void append(statement *to, const char *form, ...)
{
    va_list values;
    va_start(values, form);
    to->length += vsprintf(to->text + to->length, form, values);
    va_end(values);
}

/* A step has an index and is best looked up from the other operand's rows; between two steps, or none, SQLite chooses. */
static void join(statement *to, operand p, operand q, bool last)
{
    append(to, last ? "SELECT p.s, q.t FROM " : "SELECT DISTINCT p.s, q.t FROM ");
    if ((p.code == STEP) == (q.code == STEP))
        append(to, "r%d p JOIN r%d q", p.k, q.k);
    else if (q.code == STEP)
        append(to, "r%d p CROSS JOIN r%d q", p.k, q.k);
    else
        append(to, "r%d q CROSS JOIN r%d p", q.k, p.k);
    append(to, " ON q.s = p.t");
}

/* Pairs are extended in the order of their from records, so that those met again are close together in SQLite's table of found ones; with
 * the limit, which is none, it keeps that order below other operators too. */
#define CLOSURE "SELECT s, t FROM r%d UNION SELECT c.s, p.t FROM r%d c CROSS JOIN r%d p ON p.s = c.t ORDER BY 1 LIMIT -1"

/* The pairs of the last symbol become bits, so that it may yield a pair twice: to find that out here is faster than in a table. */
static void operate(statement *to, int k, int code, operand p, operand q, bool last)
{
    append(to, "r%d(s, t) AS (", k);
    if (code == JOIN)
        join(to, p, q, last);
    else if (code == UNION)
        append(to, "SELECT s, t FROM r%d UNION%s SELECT s, t FROM r%d", p.k, last ? " ALL" : "", q.k);
    else if (code == BOTH)
        append(to, "SELECT s, t FROM r%d WHERE (s, t) IN (SELECT s, t FROM r%d)", p.k, q.k);
    else if (code == BRANCH_RIGHT)
        append(to, "SELECT s, t FROM r%d WHERE t IN (SELECT s FROM r%d)", p.k, q.k);
    else if (code == BRANCH_LEFT)
        append(to, "SELECT s, t FROM r%d WHERE s IN (SELECT s FROM r%d)", q.k, p.k);
    else
        append(to, CLOSURE, p.k, k, p.k);
    append(to, ")");
}

/* A closure of a closure is itself. It is left out, since SQLite expands what is used twice each time, and so would double the work of
 * preparing the statement. */
static operand symbol_of(statement *to, int k, const uint8_t *symbol, operand p, operand q, bool last)
{
    int code = symbol[0] == 0x43 ? STEP : symbol[3];
    if (code == CHAIN && p.code == CHAIN)
        return p;
    append(to, k == 0 ? "WITH RECURSIVE " : ", ");
    if (code == STEP)
        append(to, "r%d(s, t) AS NOT MATERIALIZED (SELECT %s FROM link WHERE name = %d)", k,
               symbol[3] == 0 ? "source, target" : "target, source", symbol[4]);
    else
        operate(to, k, code, p, q, last);
    return (operand){k, code};
}

static void build(statement *to, const uint8_t *symbol, const uint8_t *end)
{
    operand stack[SYMBOLS + 1] = {{0}};
    int height = 0;
    to->length = 0;
    for (int k = 0; symbol < end; k++) {
        const uint8_t *next = symbol + 3 + symbol[2];
        if (symbol[0] == 0x44)
            height -= symbol[3] == CHAIN ? 1 : 2;
        stack[height] = symbol_of(to, k, symbol, stack[height], stack[height + 1], next == end);
        height++;
        symbol = next;
    }
    append(to, " SELECT s, t FROM r%d", stack[0].k);
}

void sqlite_ask(const uint8_t *question, size_t question_length, uint64_t *answer)
{
    statement made;
    sqlite3_stmt *rows;
    build(&made, question + 4, question + question_length);
    ok(sqlite3_prepare_v2(store.base, made.text, made.length + 1, &rows, NULL));
    memset(answer, 0, store.n * store.w * sizeof *answer);
    while (sqlite3_step(rows) == SQLITE_ROW) {
        size_t s = (size_t)sqlite3_column_int(rows, 0), t = (size_t)sqlite3_column_int(rows, 1);
        answer[s * store.w + t / 64] |= (uint64_t)1 << t % 64;
    }
    ok(sqlite3_finalize(rows));
}
