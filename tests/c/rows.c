/* Rows: each growth refused in turn, faults of the lists before any growth, more variables than there is memory for, and the
   deepest tree. */
#include "calls.h"

enum { DEEP = 1000 };

/* The rows x0 + x1 <= 1, x1 + x2 <= 1, x0 + x2 <= 1 and -x0 - x1 - x2 <= -2, a plan that meets all but the last, and a tree. */
struct rows {
    size_t n, starts[5];
    uint32_t variables[9];
    int64_t coefficients[9], least[4], most[4];
    uint8_t plan[3];
    size_t plan_count;
    int64_t tree[3 * DEEP + 10 + 4 * DEEP];
    size_t tree_count;
    struct nushbaret_rows_info info;
};

/* A tree of so many splits at no terms, whose high halves show themselves: 0 is at least 1. */
static void split(struct rows *rows, int64_t splits) {
    static const int64_t leaf[] = {0, 4, 0, -1, 1, -1, 2, -1, 3, -2};
    int64_t k;
    rows->tree_count = 0;
    for (k = 0; k < 3 * splits; k++) rows->tree[rows->tree_count++] = k % 3 == 0;
    memcpy(rows->tree + rows->tree_count, leaf, sizeof leaf);
    rows->tree_count += sizeof leaf / sizeof *leaf;
    for (k = splits - 1; k >= 0; k--) {
        const int64_t high[] = {0, 1, 4 + k, 1};
        memcpy(rows->tree + rows->tree_count, high, sizeof high);
        rows->tree_count += 4;
    }
}

static void set(struct rows *rows) {
    static const size_t starts[] = {0, 2, 4, 6, 9};
    static const uint32_t variables[] = {0, 1, 1, 2, 0, 2, 0, 1, 2};
    size_t k;
    memset(rows, 0, sizeof *rows);
    rows->n = 3, rows->plan[1] = 1, rows->plan_count = 3, rows->info.cost = 77, rows->info.place = 78;
    memcpy(rows->starts, starts, sizeof starts);
    memcpy(rows->variables, variables, sizeof variables);
    for (k = 0; k < 9; k++) rows->coefficients[k] = k < 6 ? 1 : -1;
    for (k = 0; k < 4; k++) rows->least[k] = INT64_MIN, rows->most[k] = k < 3 ? 1 : -2;
    split(rows, 2);
}

static int32_t judge(struct rows *rows) {
    int32_t code = nushbaret_rows(rows->n, rows->starts, 5, rows->variables, 9, rows->coefficients, 9, rows->least, 4,
        rows->most, 4, rows->plan, rows->plan_count, rows->tree, rows->tree_count, &rows->info);
    return blocks == 0 ? code : -1;
}

static void refused(void) {
    static struct rows rows;
    long k;
    for (k = 1;; k++) {
        int32_t code;
        set(&rows);
        growths = 0, refuse_at = k;
        code = judge(&rows);
        refuse_at = 0;
        if (growths < k) break;
        WANT(code == NUSHBARET_ROWS_MEMORY && rows.info.cost == 77 && rows.info.place == 78);
    }
    WANT(k > 1 && judge(&rows) == NUSHBARET_ROWS_SHOWN && rows.info.cost == -1 && rows.info.place == 78);
    printf("rows: %ld growths\n", k - 1);
}

/* Where a list is faulty, memory isn't asked for. */
static void faulty(struct rows *rows, int32_t code) {
    growths = 0, refuse_at = 1;
    WANT(judge(rows) == code && growths == 0 && rows->info.cost == 77);
    refuse_at = 0;
}

static void faults_before_memory(void) {
    static struct rows rows;
    set(&rows), rows.plan_count = 2, faulty(&rows, NUSHBARET_ROWS_LENGTH);
    set(&rows), rows.starts[2] = 1, rows.least[3] = 0, faulty(&rows, NUSHBARET_ROWS_START);
    set(&rows), rows.least[3] = -9, rows.variables[0] = 3, faulty(&rows, NUSHBARET_ROWS_COST_ROW);
    set(&rows), rows.most[3] = INT64_MAX, faulty(&rows, NUSHBARET_ROWS_COST_ROW);
    set(&rows), rows.variables[0] = 3, rows.plan[0] = 2, faulty(&rows, NUSHBARET_ROWS_ROW_VARIABLE);
    set(&rows), rows.plan[0] = 2, faulty(&rows, NUSHBARET_ROWS_PLAN_NUMBER);
}

static void too_many_variables(void) {
    static struct rows rows;
    static const size_t many[] = {SIZE_MAX, SIZE_MAX / 2 + 1, SIZE_MAX / 16 + 2};
    size_t k;
    for (k = 0; k < sizeof many / sizeof *many; k++) {
        set(&rows);
        rows.n = many[k];
        WANT(judge(&rows) == NUSHBARET_ROWS_LENGTH);
        rows.plan_count = 0;
        WANT(judge(&rows) == NUSHBARET_ROWS_MEMORY && rows.info.cost == 77 && rows.info.place == 78);
    }
}

int is_deep_right(void) {
    static struct rows rows;
    set(&rows);
    split(&rows, DEEP);
    return judge(&rows) == NUSHBARET_ROWS_SHOWN && rows.info.cost == -1;
}

void test_rows(void) {
    refused();
    faults_before_memory();
    too_many_variables();
    WANT(is_deep_right());
}
