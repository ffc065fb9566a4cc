/* The library's own steps by hand, without checks. A relation is a row of bits for each record; a triple is a node that shares the nodes
 * of its operands, and is written out only where it becomes a member. */
#include <stdbool.h>
#include <string.h>

#include "../include/paths.h"
#include "peers.h"

enum { JOIN = 128, UNION, BOTH, BRANCH_RIGHT, BRANCH_LEFT, CHAIN };
enum { HEAD_TAG = 0x41, MEMBER_TAG = 0x42, STEP_TAG = 0x43, OPERATOR_TAG = 0x44, THROUGH_TAG = 0x45 };
enum { MOST_RECORDS = 1024, MOST_WORDS = 16, MOST_KINDS = 64, MOST_LINKS = 64, MOST_CODES = 32, MOST_TRIPLES = 128, MOST_SYMBOLS = 48 };
enum { STACK = MOST_SYMBOLS / 2, MOST_HELD = 4 }; /* relations of the work words: a path's stack, and past it the steps that are held */

static size_t load16(const uint8_t *at)
{
    return (size_t)at[0] << 8 | at[1];
}

static uint64_t load64(const uint8_t *at)
{
    uint64_t x;
    memcpy(&x, at, sizeof x);
    return __builtin_bswap64(x);
}

/* ---- the register: fields of 4 bytes for its records, of 8 for its links */

typedef struct {
    size_t records, words, links;
    const uint8_t *kind, *link;
} Register;

static Register read_register(const uint8_t *file)
{
    size_t records = load16(file + 3);
    return (Register){records, PATHS_ROW_WORDS(records), load16(file + 5), file + 7 + 3, file + 7 + 4 * records};
}

static unsigned kind_of(const Register *r, size_t record)
{
    return r->kind[4 * record];
}

/* ---- relations */

/* Inlined where the width of a row is a constant, so that the loops over its words are unrolled. */
#define INLINE static inline __attribute__((always_inline))

/* A row is cleared by a copy of this one: to clear so few words gcc takes a string instruction, which is slow to start. */
static const uint64_t empty[MOST_WORDS];

/* Rows are united two words at a time: left to itself, gcc takes a local row apart into single words, more than it has registers for. */
typedef uint64_t Pair __attribute__((vector_size(16), aligned(8), may_alias));

static void set_bit(uint64_t *row, size_t t)
{
    row[t / 64] |= (uint64_t)1 << t % 64;
}

static bool has_bit(const uint64_t *row, size_t t)
{
    return row[t / 64] >> t % 64 & 1;
}

INLINE bool any(const uint64_t *row, size_t words)
{
    uint64_t all = 0;
    for (size_t j = 0; j < words; j++)
        all |= row[j];
    return all != 0;
}

INLINE void unite(uint64_t *restrict to, const uint64_t *restrict from, size_t words)
{
    for (size_t j = 0; j + 1 < words; j += 2)
        *(Pair *)(to + j) |= *(const Pair *)(from + j);
    if (words % 2 == 1)
        to[words - 1] |= from[words - 1];
}

INLINE void restrict_to(uint64_t *restrict to, const uint64_t *restrict mask, size_t words)
{
    for (size_t j = 0; j < words; j++)
        to[j] &= mask[j];
}

INLINE void step(const Register *r, bool reverse, unsigned name, uint64_t *relation, size_t words)
{
    memset(relation, 0, r->records * words * sizeof *relation);
    for (const uint8_t *link = r->link; link < r->link + 8 * r->links; link += 8)
        if (link[5] == name) {
            size_t from = load16(link + 3), to = load16(link + 6);
            set_bit(relation + (reverse ? to : from) * words, reverse ? from : to);
        }
}

/* The row becomes the rows of q for its bits in the mask, united. */
INLINE void join_row(uint64_t *row, const uint64_t *q, size_t words, const uint64_t *mask)
{
    uint64_t made[MOST_WORDS];
    memcpy(made, empty, words * sizeof *made);
    for (size_t i = 0; i < words; i++)
        for (uint64_t left = row[i] & mask[i]; left != 0; left &= left - 1)
            unite(made, q + (64 * i + (size_t)__builtin_ctzll(left)) * words, words);
    memcpy(row, made, words * sizeof *made);
}

INLINE void join(uint64_t *p, const uint64_t *q, size_t n, size_t words, const uint64_t *mask)
{
    for (size_t s = 0; s < n; s++)
        if (any(p + s * words, words))
            join_row(p + s * words, q, words, mask);
}

INLINE void branch_right(uint64_t *p, const uint64_t *q, size_t n, size_t words)
{
    uint64_t sources[MOST_WORDS] = {0};
    for (size_t t = 0; t < n; t++)
        sources[t / 64] |= (uint64_t)any(q + t * words, words) << t % 64;
    for (size_t s = 0; s < n; s++)
        restrict_to(p + s * words, sources, words);
}

INLINE void branch_left(uint64_t *p, const uint64_t *q, size_t n, size_t words)
{
    for (size_t s = 0; s < n; s++)
        if (any(p + s * words, words))
            memcpy(p + s * words, q + s * words, words * sizeof *p);
}

/* ---- closures */

/* The first bit that a row and both masks have, or 64 times the words. */
INLINE size_t first(const uint64_t *row, const uint64_t *a, const uint64_t *b, size_t words)
{
    uint64_t all = 0;
    for (size_t j = 0; j < words; j++)
        all |= row[j] & a[j] & b[j];
    if (all == 0)
        return 64 * words;
    for (size_t i = 0;; i++)
        if (row[i] & a[i] & b[i])
            return 64 * i + (size_t)__builtin_ctzll(row[i] & a[i] & b[i]);
}

INLINE void exclude(uint64_t *restrict from, const uint64_t *restrict row, size_t words)
{
    for (size_t j = 0; j < words; j++)
        from[j] &= ~row[j];
}

static void clear_bit(uint64_t *row, size_t t)
{
    row[t / 64] &= ~((uint64_t)1 << t % 64);
}

/* Rows that are not empty; of these the ones that are the closure's already. */
typedef struct {
    uint64_t live[MOST_WORDS], finished[MOST_WORDS];
} Marks;

/* The row takes in a finished row that it has, and then the others of its word at once; what they have is not gone through. */
INLINE void take_finished(uint64_t *row, uint64_t *left, const uint64_t *relation, const Marks *marks, size_t k, size_t words)
{
    size_t i = k / 64;
    unite(row, relation + k * words, words);
    exclude(left, relation + k * words, words);
    clear_bit(left, k);
    uint64_t rest = row[i] & left[i] & marks->finished[i];
    if (rest == 0)
        return;
    uint64_t all[MOST_WORDS];
    memcpy(all, empty, words * sizeof *all);
    for (uint64_t v = rest; v != 0; v &= v - 1)
        unite(all, relation + (64 * i + (size_t)__builtin_ctzll(v)) * words, words);
    unite(row, all, words);
    exclude(left, all, words);
    left[i] &= ~rest;
}

/* Row s becomes the closure's. */
INLINE void finish(uint64_t *relation, Marks *marks, size_t s, size_t words)
{
    uint64_t row[MOST_WORDS], left[MOST_WORDS];
    memcpy(row, relation + s * words, words * sizeof *row);
    memcpy(left, marks->live, words * sizeof *left);
    for (;;) {
        size_t k = first(row, left, marks->finished, words);
        if (k < 64 * words) {
            take_finished(row, left, relation, marks, k, words);
            continue;
        }
        k = first(row, left, left, words);
        if (k == 64 * words)
            break;
        unite(row, relation + k * words, words);
        clear_bit(left, k);
    }
    memcpy(relation + s * words, row, words * sizeof *row);
    set_bit(marks->finished, s);
}

/* Rows are finished as a depth-first search leaves them, so that most find finished ones to take in. */
INLINE void closure(uint64_t *relation, size_t n, size_t words)
{
    Marks marks = {0};
    uint64_t unseen[MOST_WORDS];
    size_t stack[MOST_RECORDS], depth = 0;
    for (size_t s = 0; s < n; s++)
        marks.live[s / 64] |= (uint64_t)any(relation + s * words, words) << s % 64;
    memcpy(unseen, marks.live, words * sizeof *unseen);
    for (;;) {
        size_t k = first(depth == 0 ? unseen : relation + stack[depth - 1] * words, unseen, unseen, words);
        if (k < 64 * words) {
            clear_bit(unseen, k);
            stack[depth++] = k;
        } else if (depth == 0) {
            return;
        } else {
            finish(relation, &marks, stack[--depth], words);
        }
    }
}

/* ---- closures by Warshall's way, which is a peer of its own */

/* One round, over the rows that are not empty. */
INLINE void close_through(uint64_t *const *rows, size_t count, const uint64_t *through, size_t k, size_t words)
{
    uint64_t row[MOST_WORDS];
    memcpy(row, through, words * sizeof *row);
    for (size_t i = 0; i < count; i++)
        if (has_bit(rows[i], k))
            unite(rows[i], row, words);
}

/* A closure adds neither a source nor a target, so only a record that is both is passed through. */
INLINE void warshall(uint64_t *relation, size_t n, size_t words)
{
    uint64_t targets[MOST_WORDS] = {0};
    uint64_t *rows[MOST_RECORDS];
    size_t count = 0;
    for (size_t s = 0; s < n; s++) {
        uint64_t *row = relation + s * words;
        if (any(row, words)) {
            rows[count++] = row;
            unite(targets, row, words);
        }
    }
    for (size_t i = 0; i < count; i++) {
        size_t k = (size_t)(rows[i] - relation) / words;
        if (has_bit(targets, k))
            close_through(rows, count, rows[i], k, words);
    }
}

/* ---- the records of each kind */

typedef struct {
    uint64_t present;
    uint64_t records[MOST_KINDS * MOST_WORDS];
} Kinds;

INLINE void read_kinds(const Register *r, Kinds *kinds, size_t words)
{
    kinds->present = 0;
    memset(kinds->records, 0, MOST_KINDS * words * sizeof *kinds->records);
    for (size_t t = 0; t < r->records; t++) {
        kinds->present |= (uint64_t)1 << kind_of(r, t);
        set_bit(kinds->records + kind_of(r, t) * words, t);
    }
}

INLINE void kind_mask(const Kinds *kinds, uint64_t set, size_t words, uint64_t *mask)
{
    memcpy(mask, empty, words * sizeof *mask);
    for (uint64_t left = set & kinds->present; left != 0; left &= left - 1)
        unite(mask, kinds->records + (size_t)__builtin_ctzll(left) * words, words);
}

/* ---- answers: a stack of relations in the work words */

INLINE void combine(unsigned code, uint64_t *p, const uint64_t *q, size_t n, size_t words)
{
    uint64_t all[MOST_WORDS];
    switch (code) {
    case JOIN:
        memset(all, 0xff, sizeof all);
        join(p, q, n, words, all);
        break;
    case UNION:
        unite(p, q, n * words);
        break;
    case BOTH:
        restrict_to(p, q, n * words);
        break;
    case BRANCH_RIGHT:
        branch_right(p, q, n, words);
        break;
    default:
        branch_left(p, q, n, words);
    }
}

typedef enum { BY_ROWS, BY_WARSHALL } Closing;

/* The first relation of the work words becomes the path of `count` symbols; where their fields end. A question has no kinds and no joins
 * through sets. The closing is a constant, as the width is, so that each has code of its own. */
INLINE const uint8_t *evaluate(const Register *r, const Kinds *kinds, const uint8_t *field, size_t count, uint64_t *work,
                               Closing closing, size_t words)
{
    size_t n = r->records;
    uint64_t *top = work;
    for (; count > 0; count--) {
        if (field[0] == STEP_TAG) {
            step(r, field[3], field[4], top, words);
            top += n * words;
            field += 5;
        } else if (kinds != NULL && field[0] == THROUGH_TAG) {
            uint64_t mask[MOST_WORDS];
            kind_mask(kinds, load64(field + 3), words, mask);
            top -= n * words;
            join(top - n * words, top, n, words, mask);
            field += 11;
        } else if (field[3] == CHAIN) {
            if (closing == BY_WARSHALL)
                warshall(top - n * words, n, words);
            else
                closure(top - n * words, n, words);
            field += 4;
        } else {
            top -= n * words;
            combine(field[3], top - n * words, top, n, words);
            field += 4;
        }
    }
    return field;
}

INLINE void answer_path(const Register *r, const uint8_t *question, uint64_t *work, uint64_t *answer, Closing closing, size_t words)
{
    evaluate(r, NULL, question + 4, question[3], work, closing, words);
    memcpy(answer, work, r->records * words * sizeof *answer);
}

/* ---- narrowed answers: a route, which is steps joined through sets, is followed row by row, so that no relation is made on the way */

/* The steps that were loaded, by their codes; they stay for the members that follow. */
typedef struct {
    size_t count;
    unsigned codes[MOST_HELD];
    uint64_t *relations;
} Held;

/* A step of a route, and the records through which it is joined with the legs before it; the first has none. */
typedef struct {
    const uint64_t *relation;
    uint64_t through[MOST_WORDS];
} Leg;

/* The relation of a step, which is loaded once; NULL where there is no room for it. */
INLINE const uint64_t *hold(Held *held, const Register *r, bool reverse, unsigned name, size_t words)
{
    unsigned code = 64 * reverse + name;
    size_t i = 0;
    while (i < held->count && held->codes[i] != code)
        i++;
    if (i == MOST_HELD)
        return NULL;
    uint64_t *relation = held->relations + i * r->records * words;
    if (i == held->count) {
        held->codes[held->count++] = code;
        step(r, reverse, name, relation, words);
    }
    return relation;
}

/* Whether a path is a step, and then any number of times a step and its join through a set. */
static bool is_route(const uint8_t *field, size_t count)
{
    for (field += 5; count > 2; count -= 2, field += 16)
        if (field[0] != STEP_TAG || field[5] != THROUGH_TAG)
            return false;
    return count == 1;
}

/* Reads the legs of a route; where their fields end, NULL where there is no room for a step. */
INLINE const uint8_t *read_route(const Register *r, const Kinds *kinds, Held *held, const uint8_t *field, size_t legs, Leg *route,
                                 size_t words)
{
    for (size_t i = 0; i < legs; i++) {
        route[i].relation = hold(held, r, field[3], field[4], words);
        if (route[i].relation == NULL)
            return NULL;
        field += 5;
        if (i > 0) {
            kind_mask(kinds, load64(field + 3), words, route[i].through);
            field += 11;
        }
    }
    return field;
}

/* Each source's row of the first leg goes through the other legs, and what it then has of the targets is added to the answer. */
INLINE void follow(const Leg *route, size_t legs, const uint64_t *sources, const uint64_t *targets, uint64_t *answer, size_t words)
{
    for (size_t i = 0; i < words; i++)
        for (uint64_t left = sources[i]; left != 0; left &= left - 1) {
            size_t at = (64 * i + (size_t)__builtin_ctzll(left)) * words;
            uint64_t row[MOST_WORDS];
            memcpy(row, route[0].relation + at, words * sizeof *row);
            for (size_t leg = 1; leg < legs; leg++)
                join_row(row, route[leg].relation, words, route[leg].through);
            restrict_to(row, targets, words);
            unite(answer + at, row, words);
        }
}

/* Adds the pairs of a member; where its fields end. What has to be evaluated is then a route of one leg. */
INLINE const uint8_t *add_member(const Register *r, const Kinds *kinds, Held *held, const uint8_t *member, uint64_t *work,
                                 uint64_t *answer, size_t words)
{
    Leg route[STACK];
    uint64_t sources[MOST_WORDS], targets[MOST_WORDS];
    const uint8_t *path = member + 20, *end = NULL;
    size_t count = member[3], legs = count / 2 + 1;
    if (is_route(path, count))
        end = read_route(r, kinds, held, path, legs, route, words);
    if (end == NULL) {
        end = evaluate(r, kinds, path, count, work, BY_ROWS, words);
        route[0].relation = work;
        legs = 1;
    }
    kind_mask(kinds, load64(member + 4), words, sources);
    kind_mask(kinds, load64(member + 12), words, targets);
    follow(route, legs, sources, targets, answer, words);
    return end;
}

INLINE void answer_members(const Register *r, const uint8_t *narrowed, uint64_t *work, uint64_t *answer, size_t words)
{
    Kinds kinds;
    Held held = {0, {0}, work + STACK * r->records * words};
    read_kinds(r, &kinds, words);
    memset(answer, 0, r->records * words * sizeof *answer);
    const uint8_t *member = narrowed + 5;
    for (size_t left = load16(narrowed + 3); left > 0; left--)
        member = add_member(r, &kinds, &held, member, work, answer, words);
}

/* ---- answers by the code of the register's own width */

/* Each width has functions of its own: where all of them were parts of one, gcc made slower code for the widest. */
#define ANSWERS(words)                                                                                                                \
    static void plain_##words(const Register *r, const uint8_t *file, uint64_t *work, uint64_t *answer)                               \
    {                                                                                                                                 \
        answer_path(r, file, work, answer, BY_ROWS, words);                                                                           \
    }                                                                                                                                 \
    static void by_warshall_##words(const Register *r, const uint8_t *file, uint64_t *work, uint64_t *answer)                         \
    {                                                                                                                                 \
        answer_path(r, file, work, answer, BY_WARSHALL, words);                                                                       \
    }                                                                                                                                 \
    static void by_members_##words(const Register *r, const uint8_t *file, uint64_t *work, uint64_t *answer)                          \
    {                                                                                                                                 \
        answer_members(r, file, work, answer, words);                                                                                 \
    }
ANSWERS(1)
ANSWERS(2)
ANSWERS(3)
ANSWERS(4)
ANSWERS(5)
ANSWERS(6)
ANSWERS(7)
ANSWERS(8)
ANSWERS(9)
ANSWERS(10)
ANSWERS(11)
ANSWERS(12)
ANSWERS(13)
ANSWERS(14)
ANSWERS(15)
ANSWERS(16)

typedef void Answer(const Register *r, const uint8_t *file, uint64_t *work, uint64_t *answer);

/* The functions of all widths; without records any of them will do. */
#define BY_WIDTH(name)                                                                                                                \
    {name##_16, name##_1, name##_2, name##_3, name##_4, name##_5, name##_6, name##_7, name##_8,                                       \
     name##_9, name##_10, name##_11, name##_12, name##_13, name##_14, name##_15, name##_16}
static Answer *const plain[] = BY_WIDTH(plain);
static Answer *const by_warshall[] = BY_WIDTH(by_warshall);
static Answer *const by_members[] = BY_WIDTH(by_members);

/* ---- the sheet: the to kinds of each link name and from kind */

typedef struct {
    size_t kinds, links;
    uint64_t to[MOST_LINKS * MOST_KINDS];
} Sheet;

static void read_sheet(const uint8_t *file, size_t length, Sheet *sheet)
{
    sheet->kinds = file[3];
    sheet->links = file[4];
    memset(sheet->to, 0, sheet->links * MOST_KINDS * sizeof *sheet->to);
    for (const uint8_t *triple = file + 5; triple < file + length; triple += 6)
        sheet->to[triple[4] * MOST_KINDS + triple[3]] |= (uint64_t)1 << triple[5];
}

static bool obeys(const Register *r, const Sheet *sheet)
{
    for (size_t t = 0; t < r->records; t++)
        if (kind_of(r, t) >= sheet->kinds)
            return false;
    for (size_t i = 0; i < r->links; i++) {
        const uint8_t *link = r->link + 8 * i;
        unsigned from = kind_of(r, load16(link + 3)), name = link[5], to = kind_of(r, load16(link + 6));
        if (name >= sheet->links || !(sheet->to[name * MOST_KINDS + from] >> to & 1))
            return false;
    }
    return true;
}

/* ---- triples: a node for each, its operands before it */

typedef struct {
    uint64_t hash;        /* of its path */
    uint16_t left, right; /* its operands; of a kept chain where its operand starts in the question, and its number of symbols */
    uint8_t made, size;   /* the code of its path's last symbol, and its number of symbols */
    uint8_t from, to;
} Node;

typedef struct {
    size_t start, end;
    size_t origin; /* where its symbols start in the question */
} Part;

/* The part that is being made has the nodes from `start` up to `used`; each has its place in `slots`, by its hash. */
typedef struct {
    Node node[MOST_CODES * MOST_TRIPLES];
    size_t start, used;
    uint8_t codes[MOST_CODES];
    uint8_t slots[256];
} Table;

static uint64_t mix(uint64_t a, uint64_t b, uint64_t c)
{
    uint64_t x = (a + c) * 0x9e3779b97f4a7c15;
    return ((x ^ x >> 32) + b) * 0xbf58476d1ce4e5b9;
}

static bool same_path(const Table *t, const Node *x, const Node *y)
{
    if (x->hash != y->hash || x->made != y->made)
        return false;
    if (x->made < JOIN)
        return true;
    if (x->made == CHAIN)
        return x->right == y->right && memcmp(t->codes + x->left, t->codes + y->left, x->right) == 0;
    const Node *p = t->node + x->left, *q = t->node + y->left;
    if (x->made == JOIN && p->to != q->to)
        return false;
    return same_path(t, p, q) && same_path(t, t->node + x->right, t->node + y->right);
}

/* Adds a triple unless it is there already; false where the part gets too many or its path is too long. */
static bool add(Table *t, Node x)
{
    size_t slot = mix(x.hash, x.from, x.to) >> 56;
    for (; t->slots[slot] != 0; slot = (slot + 1) % 256) {
        const Node *y = t->node + t->start + t->slots[slot] - 1;
        if (x.from == y->from && x.to == y->to && same_path(t, &x, y))
            return true;
    }
    if (t->used - t->start == MOST_TRIPLES || x.size > MOST_SYMBOLS)
        return false;
    t->node[t->used++] = x;
    t->slots[slot] = (uint8_t)(t->used - t->start);
    return true;
}

static bool add_pair(Table *t, unsigned made, size_t i, size_t j)
{
    const Node *x = t->node + i, *y = t->node + j;
    uint64_t symbol = made == JOIN ? made + 256 * x->to : made;
    unsigned to = made == BRANCH_RIGHT ? x->to : y->to;
    return add(t, (Node){mix(x->hash, y->hash, symbol), (uint16_t)i, (uint16_t)j, (uint8_t)made, (uint8_t)(x->size + y->size + 1),
                         x->from, (uint8_t)to});
}

/* The nodes of a part by their from kind: `first` and `next` have 1 more than a node's place in the part, 0 at the end. */
typedef struct {
    size_t start;
    uint8_t first[MOST_KINDS], next[MOST_TRIPLES];
} Index;

static void index_part(const Table *t, size_t start, size_t end, Index *index)
{
    index->start = start;
    memset(index->first, 0, sizeof index->first);
    for (size_t i = start; i < end; i++) {
        uint8_t *first = index->first + t->node[i].from;
        index->next[i - start] = *first;
        *first = (uint8_t)(i - start + 1);
    }
}

/* What node i gives with the indexed nodes that fit. */
static bool add_pairs(Table *t, unsigned made, size_t i, const Index *index)
{
    const Node *x = t->node + i;
    unsigned kind = made == BOTH || made == BRANCH_LEFT ? x->from : x->to;
    for (unsigned k = index->first[kind]; k != 0; k = index->next[k - 1]) {
        size_t j = index->start + k - 1;
        if (made == BOTH && x->to != t->node[j].to)
            continue;
        if (!add_pair(t, made, i, j))
            return false;
    }
    return true;
}

static bool pair_rule(Table *t, unsigned made, const Part *p, const Part *q)
{
    Index index;
    index_part(t, q->start, q->end, &index);
    for (size_t i = p->start; i < p->end; i++)
        if (!add_pairs(t, made, i, &index))
            return false;
    return true;
}

static bool union_rule(Table *t, const Part *p, const Part *q)
{
    for (size_t i = p->start; i < p->end; i++)
        if (!add(t, t->node[i]))
            return false;
    for (size_t i = q->start; i < q->end; i++)
        if (!add(t, t->node[i]))
            return false;
    return true;
}

static bool step_rule(Table *t, const Sheet *sheet, uint8_t code)
{
    bool reverse = code >= 64;
    const uint64_t *to = sheet->to + code % 64 * MOST_KINDS;
    for (unsigned a = 0; a < sheet->kinds; a++)
        for (uint64_t left = to[a]; left != 0; left &= left - 1) {
            unsigned b = (unsigned)__builtin_ctzll(left);
            if (!add(t, (Node){code, 0, 0, code, 1, (uint8_t)(reverse ? b : a), (uint8_t)(reverse ? a : b)}))
                return false;
        }
    return true;
}

/* ---- chains */

/* Row a of `reach` becomes the kinds to which a walk leads from kind a, of `met` those to which one leads that meets a ringed kind. */
static uint64_t walk(const Table *t, const Part *p, uint64_t *reach, uint64_t *met)
{
    uint64_t ringed = 0;
    memset(reach, 0, MOST_KINDS * sizeof *reach);
    for (size_t i = p->start; i < p->end; i++)
        reach[t->node[i].from] |= (uint64_t)1 << t->node[i].to;
    closure(reach, MOST_KINDS, 1);
    for (size_t k = 0; k < MOST_KINDS; k++)
        ringed |= reach[k] & (uint64_t)1 << k;
    memcpy(met, reach, MOST_KINDS * sizeof *met);
    join(met, reach, MOST_KINDS, 1, &ringed);
    return ringed;
}

/* The part as it grows is joined with its first nodes, which are those of the operand that meet no ringed kind. */
static bool add_walks(Table *t, const Part *p, uint64_t ringed)
{
    Index index;
    for (size_t i = p->start; i < p->end; i++)
        if (!((ringed >> t->node[i].from | ringed >> t->node[i].to) & 1) && !add(t, t->node[i]))
            return false;
    index_part(t, t->start, t->used, &index);
    for (size_t i = t->start; i < t->used; i++)
        if (!add_pairs(t, JOIN, i, &index))
            return false;
    return true;
}

static bool chain_rule(Table *t, const Part *p, size_t place)
{
    uint64_t reach[MOST_KINDS], met[MOST_KINDS];
    uint64_t ringed = walk(t, p, reach, met);
    if (!add_walks(t, p, ringed))
        return false;
    size_t size = place - p->origin;
    uint64_t hash = CHAIN;
    for (size_t i = p->origin; i < place; i++)
        hash = mix(hash, 0, t->codes[i]);
    for (unsigned a = 0; a < MOST_KINDS; a++)
        for (uint64_t left = met[a]; left != 0; left &= left - 1) {
            uint8_t b = (uint8_t)__builtin_ctzll(left);
            if (!add(t, (Node){hash, (uint16_t)p->origin, (uint16_t)size, CHAIN, (uint8_t)(size + 1), (uint8_t)a, b}))
                return false;
        }
    return true;
}

/* ---- the triples of a question */

static bool rule(Table *t, const Sheet *sheet, const Part *p, size_t place)
{
    uint8_t code = t->codes[place];
    if (code < JOIN)
        return step_rule(t, sheet, code);
    if (code == CHAIN)
        return chain_rule(t, p, place);
    if (code == UNION)
        return union_rule(t, p, p + 1);
    return pair_rule(t, code, p, p + 1);
}

static size_t read_question(const uint8_t *file, uint8_t *codes)
{
    const uint8_t *field = file + 4;
    for (size_t i = 0; i < file[3]; i++) {
        bool step = field[0] == STEP_TAG;
        codes[i] = (uint8_t)(step ? 64 * field[3] + field[4] : field[3]);
        field += step ? 5 : 4;
    }
    return file[3];
}

/* The nodes from `start` up to `used` become the triples of the question. */
static bool infer(Table *t, const Sheet *sheet, const uint8_t *question)
{
    Part parts[MOST_CODES + 1], *top = parts;
    size_t count = read_question(question, t->codes);
    t->used = 0;
    for (size_t place = 0; place < count; place++) {
        unsigned code = t->codes[place];
        Part *p = code < JOIN ? top : code == CHAIN ? top - 1 : top - 2;
        t->start = t->used;
        memset(t->slots, 0, sizeof t->slots);
        if (!rule(t, sheet, p, place))
            return false;
        *p = (Part){t->start, t->used, code < JOIN ? place : p->origin};
        top = p + 1;
    }
    return true;
}

/* ---- members, in the order of their codes */

/* Codes are followed by zeros: as a longer path ends in an operator, they compare as if they ended. */
typedef struct {
    uint64_t from, to, sets[MOST_SYMBOLS];
    uint8_t size, codes[MOST_SYMBOLS];
} Member;

typedef struct {
    size_t count;
    uint8_t order[MOST_TRIPLES];
    Member member[MOST_TRIPLES];
} Members;

static void put_code(Member *m, uint8_t code, uint64_t set)
{
    m->codes[m->size] = code;
    m->sets[m->size++] = set;
}

/* Writes out a node's path. */
static void expand(const Table *t, const Node *x, Member *m)
{
    if (x->made == CHAIN) {
        for (size_t i = 0; i < x->right; i++)
            put_code(m, t->codes[x->left + i], 0);
    } else if (x->made >= JOIN) {
        expand(t, t->node + x->left, m);
        expand(t, t->node + x->right, m);
    }
    put_code(m, x->made, x->made == JOIN ? (uint64_t)1 << t->node[x->left].to : 0);
}

/* The member after the last takes its place among the others, or is merged with the one that has its codes. */
static void place_member(Members *all)
{
    const Member *new = all->member + all->count;
    size_t low = 0, high = all->count;
    while (low < high) {
        size_t middle = (low + high) / 2;
        Member *old = all->member + all->order[middle];
        int order = memcmp(old->codes, new->codes, MOST_SYMBOLS);
        if (order == 0) {
            old->from |= new->from;
            old->to |= new->to;
            unite(old->sets, new->sets, new->size);
            return;
        }
        if (order < 0)
            low = middle + 1;
        else
            high = middle;
    }
    memmove(all->order + low + 1, all->order + low, all->count - low);
    all->order[low] = (uint8_t)all->count++;
}

static void merge(const Table *t, Members *all)
{
    all->count = 0;
    for (size_t i = t->start; i < t->used; i++) {
        const Node *x = t->node + i;
        Member *m = all->member + all->count;
        m->from = (uint64_t)1 << x->from;
        m->to = (uint64_t)1 << x->to;
        m->size = 0;
        memset(m->codes, 0, sizeof m->codes);
        expand(t, x, m);
        place_member(all);
    }
}

/* ---- the file */

static uint8_t *put_head(uint8_t *at, uint8_t tag, uint8_t length)
{
    at[0] = tag;
    at[1] = 0;
    at[2] = length;
    return at + 3;
}

static uint8_t *put64(uint8_t *at, uint64_t x)
{
    x = __builtin_bswap64(x);
    memcpy(at, &x, sizeof x);
    return at + sizeof x;
}

static uint8_t *put_symbol(uint8_t *at, uint8_t code, uint64_t set)
{
    if (set != 0)
        return put64(put_head(at, THROUGH_TAG, 8), set);
    if (code < JOIN) {
        at = put_head(at, STEP_TAG, 2);
        *at++ = code / 64;
        *at++ = code % 64;
        return at;
    }
    at = put_head(at, OPERATOR_TAG, 1);
    *at++ = code;
    return at;
}

static size_t put_file(const Members *all, uint8_t *file)
{
    uint8_t *at = put_head(file, HEAD_TAG, 2);
    *at++ = 0;
    *at++ = (uint8_t)all->count;
    for (size_t i = 0; i < all->count; i++) {
        const Member *m = all->member + all->order[i];
        at = put_head(at, MEMBER_TAG, 17);
        *at++ = m->size;
        at = put64(put64(at, m->from), m->to);
        for (size_t j = 0; j < m->size; j++)
            at = put_symbol(at, m->codes[j], m->sets[j]);
    }
    return (size_t)(at - file);
}

static size_t narrow(const Sheet *sheet, const uint8_t *question, uint8_t *file)
{
    Table table;
    Members members;
    if (!infer(&table, sheet, question))
        return 0;
    merge(&table, &members);
    return put_file(&members, file);
}

/* ---- the calls */

void c_plain(const uint8_t *question, size_t question_length, const uint8_t *register_file, size_t register_length,
             uint64_t *work, uint64_t *answer)
{
    (void)question_length, (void)register_length;
    Register r = read_register(register_file);
    plain[r.words](&r, question, work, answer);
    memset(work, 0, PATHS_ANSWER_WORK(r.records) * sizeof *work);
}

void warshall_plain(const uint8_t *question, size_t question_length, const uint8_t *register_file, size_t register_length,
                    uint64_t *work, uint64_t *answer)
{
    (void)question_length, (void)register_length;
    Register r = read_register(register_file);
    by_warshall[r.words](&r, question, work, answer);
    memset(work, 0, PATHS_ANSWER_WORK(r.records) * sizeof *work);
}

void c_narrowed(const uint8_t *narrowed, size_t narrowed_length, const uint8_t *register_file, size_t register_length,
                uint64_t *work, uint64_t *answer)
{
    (void)narrowed_length, (void)register_length;
    Register r = read_register(register_file);
    by_members[r.words](&r, narrowed, work, answer);
    memset(work, 0, PATHS_ANSWER_WORK(r.records) * sizeof *work);
}

size_t c_narrow(const uint8_t *sheet_file, size_t sheet_length, const uint8_t *question, size_t question_length, uint64_t *work,
                uint8_t *file)
{
    (void)question_length;
    Sheet sheet;
    read_sheet(sheet_file, sheet_length, &sheet);
    size_t bytes = narrow(&sheet, question, file);
    memset(work, 0, PATHS_NARROW_WORK * sizeof *work);
    return bytes;
}

size_t c_job(const uint8_t *sheet_file, size_t sheet_length, const uint8_t *question, size_t question_length,
             const uint8_t *register_file, size_t register_length, uint64_t *work, uint64_t *answer, uint8_t *file)
{
    (void)question_length, (void)register_length;
    Sheet sheet;
    Register r = read_register(register_file);
    read_sheet(sheet_file, sheet_length, &sheet);
    size_t bytes = obeys(&r, &sheet) ? narrow(&sheet, question, file) : 0;
    if (bytes != 0)
        by_members[r.words](&r, file, work, answer);
    memset(work, 0, PATHS_JOB_WORK(r.records) * sizeof *work);
    return bytes;
}
