/* Path questions in SuiteSparse:GraphBLAS: a Boolean matrix per link name, and an operation of sparse linear algebra per operator.
 *
 * Matrices are held by row and iso-valued, so that only patterns are computed; ANY_PAIR is the fastest semiring for that.
 */
#include "peers.h"

#include <GraphBLAS.h>

enum { NAMES = 64, SYMBOLS = 32 };
enum { JOIN = 128, UNION, BOTH, BRANCH_RIGHT, BRANCH_LEFT, CHAIN };

/* Steps by direction and link name. NULL is a name without links or, in reverse, a step that no question has asked for yet. */
static struct {
    GrB_Index n;
    size_t w;
    GrB_Matrix steps[2][NAMES];
} store;

/* A matrix of the store is lent to a question; any other is freed once it is used. */
typedef struct {
    GrB_Matrix matrix;
    bool lent;
} relation;

static void ok(GrB_Info info)
{
    if (info != GrB_SUCCESS) {
        fprintf(stderr, "GraphBLAS: error %d\n", (int)info);
        abort();
    }
}

static GrB_Index two_bytes(const uint8_t *bytes)
{
    return (GrB_Index)bytes[0] << 8 | bytes[1];
}

static GrB_Matrix empty(void)
{
    GrB_Matrix made;
    ok(GrB_Matrix_new(&made, GrB_BOOL, store.n, store.n));
    return made;
}

/* One thread, since the library uses one. */
void graphblas_start(void)
{
    ok(GrB_init(GrB_NONBLOCKING));
    ok(GxB_Global_Option_set(GxB_GLOBAL_NTHREADS, 1));
}

/* The links of one name as a matrix by row: the rows that have entries, where the entries of each begin, and the entries' columns. */
typedef struct {
    GrB_Index *rows, *starts, *columns, row_count, count;
} links;

static void add(links *l, GrB_Index most, GrB_Index from, GrB_Index to)
{
    if (l->count == 0) {
        l->rows = malloc(most * sizeof(GrB_Index));
        l->starts = malloc((most + 1) * sizeof(GrB_Index));
        l->columns = malloc(most * sizeof(GrB_Index));
    }
    if (l->count == 0 || l->rows[l->row_count - 1] != from) {
        l->rows[l->row_count] = from;
        l->starts[l->row_count++] = l->count;
    }
    l->columns[l->count++] = to;
}

/* GraphBLAS takes over the arrays without a copy. */
static GrB_Matrix pack(links *l)
{
    GrB_Matrix made = empty();
    GrB_Index size = l->count * sizeof(GrB_Index);
    void *one = malloc(sizeof(bool));
    *(bool *)one = true;
    l->starts[l->row_count] = l->count;
    ok(GxB_Matrix_pack_HyperCSR(made, &l->starts, &l->rows, &l->columns, &one, size + sizeof(GrB_Index), size, size, sizeof(bool), true,
                                l->row_count, false, NULL));
    return made;
}

void graphblas_load(const uint8_t *register_file, size_t register_length)
{
    const uint8_t *first = register_file + 7 + 4 * two_bytes(register_file + 3), *end = register_file + register_length;
    links made[NAMES] = {0};
    GrB_Index counts[NAMES] = {0};
    for (int i = 0; i < 2 * NAMES; i++)
        ok(GrB_Matrix_free(&store.steps[i / NAMES][i % NAMES]));
    store.n = two_bytes(register_file + 3);
    store.w = (store.n + 63) / 64;
    for (const uint8_t *link = first; link < end; link += 8)
        counts[link[5]]++;
    for (const uint8_t *link = first; link < end; link += 8)
        add(&made[link[5]], counts[link[5]], two_bytes(link + 3), two_bytes(link + 6));
    for (int name = 0; name < NAMES; name++)
        if (counts[name])
            store.steps[0][name] = pack(&made[name]);
}

/* Transposes are kept, since a step is often asked for again. */
static relation step(int direction, int name)
{
    GrB_Matrix forward = store.steps[0][name], *kept = &store.steps[direction][name];
    if (forward == NULL)
        return (relation){empty(), false};
    if (*kept == NULL) {
        *kept = empty();
        ok(GrB_transpose(*kept, NULL, NULL, forward, NULL));
    }
    return (relation){*kept, true};
}

/* A diagonal matrix of the records that have a pair from them: a product with it keeps columns, or rows. */
static GrB_Matrix sources(GrB_Matrix p)
{
    GrB_Vector some;
    GrB_Matrix made;
    ok(GrB_Vector_new(&some, GrB_BOOL, store.n));
    ok(GrB_Matrix_reduce_Monoid(some, NULL, NULL, GxB_ANY_BOOL_MONOID, p, NULL));
    ok(GrB_Matrix_diag(&made, some, 0));
    ok(GrB_Vector_free(&some));
    return made;
}

static void branch(GrB_Matrix made, GrB_Matrix p, GrB_Matrix q, int code)
{
    GrB_Matrix kept = sources(code == BRANCH_RIGHT ? q : p);
    if (code == BRANCH_RIGHT)
        ok(GrB_mxm(made, NULL, NULL, GxB_ANY_PAIR_BOOL, p, kept, NULL));
    else
        ok(GrB_mxm(made, NULL, NULL, GxB_ANY_PAIR_BOOL, kept, q, NULL));
    ok(GrB_Matrix_free(&kept));
}

/* Adds in place where a bitmap allows it. */
static void add_pairs(GrB_Matrix to, GrB_Matrix more)
{
    int32_t form;
    ok(GxB_Matrix_Option_get(to, GxB_SPARSITY_STATUS, &form));
    if (form == GxB_BITMAP)
        ok(GrB_Matrix_assign_BOOL(to, more, NULL, true, GrB_ALL, store.n, GrB_ALL, store.n, GrB_DESC_S));
    else
        ok(GrB_Matrix_eWiseAdd_BinaryOp(to, NULL, NULL, GrB_ONEB_BOOL, to, more, NULL));
}

/* Semi-naive: each round extends only the pairs found in the last one, and computes only pairs not found yet. On long paths the rounds
 * are many but small, where squaring multiplies large matrices. The densities from which a bitmap is faster are measured ones, for what is
 * found (a mask) and for the frontier; to extend the frontier by a product from the left is faster than from the right. */
static GrB_Matrix transitive_closure(GrB_Matrix p)
{
    GrB_Matrix made, frontier;
    GrB_Index found;
    ok(GrB_Matrix_dup(&made, p));
    ok(GxB_Matrix_Option_set(made, GxB_BITMAP_SWITCH, 0.005));
    ok(GrB_Matrix_dup(&frontier, p));
    ok(GxB_Matrix_Option_set(frontier, GxB_BITMAP_SWITCH, store.n <= 64 ? 0.0 : 0.1));
    for (;;) {
        ok(GrB_mxm(frontier, made, NULL, GxB_ANY_PAIR_BOOL, p, frontier, GrB_DESC_RSC));
        ok(GrB_Matrix_nvals(&found, frontier));
        if (found == 0)
            break;
        add_pairs(made, frontier);
    }
    ok(GrB_Matrix_free(&frontier));
    return made;
}

static GrB_Matrix combine(int code, GrB_Matrix p, GrB_Matrix q)
{
    if (code == CHAIN)
        return transitive_closure(p);
    GrB_Matrix made = empty();
    if (code == JOIN)
        ok(GrB_mxm(made, NULL, NULL, GxB_ANY_PAIR_BOOL, p, q, NULL));
    else if (code == UNION)
        ok(GrB_Matrix_eWiseAdd_BinaryOp(made, NULL, NULL, GrB_ONEB_BOOL, p, q, NULL));
    else if (code == BOTH)
        ok(GrB_Matrix_eWiseMult_BinaryOp(made, NULL, NULL, GrB_ONEB_BOOL, p, q, NULL));
    else
        branch(made, p, q, code);
    return made;
}

/* A closure is held as a bitmap from a density at which other operators are faster on sparse rows: as an operand it goes by the density
 * that GraphBLAS prefers. The answer is written from either form. */
static GrB_Matrix operand(relation r)
{
    ok(GxB_Matrix_Option_set(r.matrix, GxB_BITMAP_SWITCH, 0.4));
    return r.matrix;
}

static void release(relation r)
{
    if (!r.lent)
        ok(GrB_Matrix_free(&r.matrix));
}

static relation operate(int code, relation p, relation q)
{
    relation made = {combine(code, operand(p), code == CHAIN ? NULL : operand(q)), false};
    release(p);
    if (code != CHAIN)
        release(q);
    return made;
}

/* Bits from the columns of rows, without a sort of a row's columns. */
static void write_sparse(GrB_Matrix m, uint64_t *answer)
{
    GrB_Index *starts, *columns, sizes[3];
    void *values;
    bool iso, jumbled;
    ok(GxB_Matrix_unpack_CSR(m, &starts, &columns, &values, &sizes[0], &sizes[1], &sizes[2], &iso, &jumbled, NULL));
    for (GrB_Index s = 0; s < store.n; s++)
        for (GrB_Index k = starts[s]; k < starts[s + 1]; k++)
            answer[s * store.w + columns[k] / 64] |= (uint64_t)1 << columns[k] % 64;
    ok(GxB_Matrix_pack_CSR(m, &starts, &columns, &values, sizes[0], sizes[1], sizes[2], iso, jumbled, NULL));
}

/* A word from up to 64 bytes that are 0 or 1; eight at a time, the product puts byte i at bit 56 + i. */
static uint64_t word_of(const int8_t *bytes, GrB_Index count)
{
    uint64_t eight, word = 0;
    GrB_Index i = 0;
    for (; i + 8 <= count; i += 8) {
        memcpy(&eight, bytes + i, 8);
        word |= eight * 0x0102040810204080 >> 56 << i;
    }
    for (; i < count; i++)
        word |= (uint64_t)bytes[i] << i;
    return word;
}

static void write_bitmap(GrB_Matrix m, uint64_t *answer)
{
    GrB_Index sizes[2], count;
    int8_t *bitmap;
    void *values;
    bool iso;
    ok(GxB_Matrix_unpack_BitmapR(m, &bitmap, &values, &sizes[0], &sizes[1], &iso, &count, NULL));
    for (GrB_Index s = 0; s < store.n; s++)
        for (GrB_Index t = 0; t < store.n; t += 64)
            *answer++ = word_of(bitmap + s * store.n + t, store.n - t < 64 ? store.n - t : 64);
    ok(GxB_Matrix_pack_BitmapR(m, &bitmap, &values, sizes[0], sizes[1], iso, count, NULL));
}

static void write_answer(GrB_Matrix m, uint64_t *answer)
{
    int32_t form;
    memset(answer, 0, store.n * store.w * sizeof *answer);
    ok(GxB_Matrix_Option_get(m, GxB_SPARSITY_STATUS, &form));
    if (form == GxB_HYPERSPARSE || form == GxB_SPARSE)
        write_sparse(m, answer);
    else
        write_bitmap(m, answer);
}

void graphblas_ask(const uint8_t *question, size_t question_length, uint64_t *answer)
{
    relation stack[SYMBOLS] = {{0}};
    int height = 0;
    if (store.n == 0)
        return;
    for (const uint8_t *symbol = question + 4; symbol < question + question_length; symbol += 3 + symbol[2]) {
        int code = symbol[3];
        if (symbol[0] == 0x43) {
            stack[height++] = step(code, symbol[4]);
        } else {
            height -= code == CHAIN ? 1 : 2;
            stack[height] = operate(code, stack[height], stack[height + 1]);
            height++;
        }
    }
    write_answer(stack[0].matrix, answer);
    release(stack[0]);
}
