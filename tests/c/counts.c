/* Counts: worked problems, each growth of each call refused in turn, budgets of one look, records that hold anything, and
   what threads.c calls. */
#include "calls.h"

enum { ROWS = 3, COLUMNS = 2, MOST_COLUMNS = 3, LISTED = 6 };

/* Three rows that take one column each, two columns of at most two rows; costs 1 2, 1 3, 1 4: the best plan costs 4. */
struct counts {
    uint32_t of_rows[LISTED], of_columns[LISTED], row_least[ROWS], row_most[ROWS];
    uint32_t column_least[MOST_COLUMNS], column_most[MOST_COLUMNS], groups[MOST_COLUMNS];
    size_t columns, pairs, listed, groups_count;
    int64_t costs[LISTED], row_numbers[ROWS], column_numbers[MOST_COLUMNS];
    uint8_t plan[LISTED], row_marks[ROWS], column_marks[MOST_COLUMNS];
    uint32_t sense;
    struct nushbaret_counts_record record;
    struct nushbaret_counts_info info;
};

static struct counts worked(void) {
    static const int64_t costs[] = {1, 2, 1, 3, 1, 4};
    struct counts c;
    size_t k;
    memset(&c, 0, sizeof c);
    c.columns = COLUMNS, c.pairs = c.listed = LISTED;
    memcpy(c.costs, costs, sizeof costs);
    for (k = 0; k < LISTED; k++) c.of_rows[k] = (uint32_t)(k / 2 + 1), c.of_columns[k] = (uint32_t)(k % 2 + 1);
    for (k = 0; k < ROWS; k++) c.row_least[k] = c.row_most[k] = 1;
    for (k = 0; k < COLUMNS; k++) c.column_most[k] = 2;
    c.info.place = 77;
    return c;
}

/* The same rows one to one with three columns, of which row 3 lists the third in place of the second: the best plan costs 7. */
static struct counts ones(void) {
    struct counts c = worked();
    size_t k;
    c.columns = MOST_COLUMNS, c.of_columns[5] = 3;
    for (k = 0; k < MOST_COLUMNS; k++) c.column_most[k] = 1;
    return c;
}

static int32_t from(struct counts *c, uint64_t budget) {
    int32_t code = nushbaret_counts_from(c->sense, c->of_rows, c->listed, c->of_columns, c->listed, c->costs, c->pairs,
        c->row_least, ROWS, c->row_most, ROWS, c->column_least, c->columns, c->column_most, c->columns, c->groups, c->groups_count,
        c->plan, c->pairs, c->row_numbers, ROWS, c->column_numbers, c->columns, c->row_marks, ROWS, c->column_marks, c->columns,
        budget, &c->record, &c->info);
    return blocks == 0 ? code : -1;
}

static int32_t solved(struct counts *c) {
    int32_t code = nushbaret_counts(c->sense, c->of_rows, c->listed, c->of_columns, c->listed, c->costs, c->pairs,
        c->row_least, ROWS, c->row_most, ROWS, c->column_least, c->columns, c->column_most, c->columns, c->groups, c->groups_count,
        c->plan, c->pairs, c->row_numbers, ROWS, c->column_numbers, c->columns, c->row_marks, ROWS, c->column_marks, c->columns,
        &c->info);
    return blocks == 0 ? code : -1;
}

static int32_t checked(struct counts *c) {
    int32_t code = nushbaret_check_counts(c->sense, c->of_rows, c->listed, c->of_columns, c->listed, c->costs, c->pairs,
        c->row_least, ROWS, c->row_most, ROWS, c->column_least, c->columns, c->column_most, c->columns, c->groups, c->groups_count,
        c->plan, c->pairs, c->row_numbers, ROWS, c->column_numbers, c->columns, &c->info);
    return blocks == 0 ? code : -1;
}

static int32_t short_of(struct counts *c, uint32_t side) {
    int32_t code = nushbaret_check_shortage(c->sense, c->of_rows, c->listed, c->of_columns, c->listed, c->costs, c->pairs,
        c->row_least, ROWS, c->row_most, ROWS, c->column_least, c->columns, c->column_most, c->columns, c->groups, c->groups_count,
        side, c->row_marks, ROWS, c->column_marks, c->columns, &c->info);
    return blocks == 0 ? code : -1;
}

/* A plan by hand, with numbers that prove it: rows 2 and 3 are at column 1, which is full. */
static void judged(void) {
    struct counts c = worked();
    size_t k;
    c.plan[1] = c.plan[2] = c.plan[4] = 1;
    c.row_numbers[0] = 2, c.row_numbers[1] = 2, c.row_numbers[2] = 2, c.column_numbers[0] = -1;
    WANT(checked(&c) == NUSHBARET_COUNTS_BEST && c.info.place == 77);
    c.plan[4] = 0, c.plan[5] = 1;
    WANT(checked(&c) == NUSHBARET_COUNTS_COLUMN_LOOSE && c.info.column == 1);
    c.plan[4] = 1, c.groups[0] = c.groups[1] = 1, c.groups_count = COLUMNS;
    WANT(checked(&c) == NUSHBARET_COUNTS_TWICE && c.info.place == 5);
    c = worked();
    c.column_most[1] = 0;
    for (k = 0; k < ROWS; k++) c.row_marks[k] = 1;
    WANT(short_of(&c, NUSHBARET_COUNTS_ROWS_LACK) == NUSHBARET_COUNTS_ENOUGH);
    for (k = 0; k < COLUMNS; k++) c.column_marks[k] = 1;
    WANT(short_of(&c, NUSHBARET_COUNTS_ROWS_LACK) == NUSHBARET_COUNTS_ROWS_LACK);
    WANT(short_of(&c, NUSHBARET_COUNTS_COLUMNS_LACK) == NUSHBARET_COUNTS_ENOUGH);
    WANT(short_of(&c, 0) == NUSHBARET_COUNTS_SIDE);
}

static void answered(void) {
    struct counts c = worked();
    WANT(solved(&c) == NUSHBARET_COUNTS_BEST && c.info.total_high == 0 && c.info.total_low == 4 && checked(&c) == 0);
    c = worked(), c.listed = 0;
    WANT(solved(&c) == NUSHBARET_COUNTS_BEST && c.info.total_low == 4 && checked(&c) == 0);
    c = worked(), c.sense = NUSHBARET_MAX;
    WANT(solved(&c) == NUSHBARET_COUNTS_BEST && c.info.total_low == 8 && checked(&c) == 0);
    c = worked(), c.column_most[1] = 0;
    WANT(solved(&c) == NUSHBARET_COUNTS_ROWS_LACK && short_of(&c, NUSHBARET_COUNTS_ROWS_LACK) == NUSHBARET_COUNTS_ROWS_LACK);
    c = ones();
    WANT(solved(&c) == NUSHBARET_COUNTS_BEST && c.info.total_low == 7 && checked(&c) == 0);
    c = ones(), c.of_columns[5] = 2;
    WANT(solved(&c) == NUSHBARET_COUNTS_ROWS_LACK && short_of(&c, NUSHBARET_COUNTS_ROWS_LACK) == NUSHBARET_COUNTS_ROWS_LACK);
}

static int32_t from_start(struct counts *c) { return from(c, 0); }
static int32_t short_of_rows(struct counts *c) { return short_of(c, NUSHBARET_COUNTS_ROWS_LACK); }

/* Each growth of a call refused in turn: the buffers, the record and the infos stay as they were. */
static void refused(const char *name, int32_t (*call)(struct counts *), struct counts given) {
    long k;
    for (k = 1;; k++) {
        struct counts c = given, before = given;
        int32_t code;
        growths = 0, refuse_at = k;
        code = call(&c);
        refuse_at = 0;
        if (growths < k) break;
        WANT(code == NUSHBARET_COUNTS_MEMORY && memcmp(&c, &before, sizeof c) == 0);
    }
    WANT(k > 1);
    printf("%s: %ld growths\n", name, k - 1);
}

static void all_refused(void) {
    struct counts c = worked();
    refused("counts", solved, c);
    refused("counts from nothing", from_start, c);
    c.column_most[1] = 0;
    refused("counts without a plan", solved, c);
    c = worked(), c.listed = 0;
    refused("dense counts", solved, c);
    refused("check_counts", checked, c);
    refused("check_shortage", short_of_rows, c);
    c = worked(), c.groups[0] = 1, c.groups[1] = 1, c.groups_count = COLUMNS;
    refused("counts with groups", solved, c);
    refused("counts of ones", solved, ones());
}

static void in_pieces(struct counts given, uint64_t cost) {
    struct counts c = given;
    unsigned seed = 78;
    int calls = 1, k;
    while (from(&c, 1) == NUSHBARET_COUNTS_STOPPED && calls < 100000) calls++;
    WANT(checked(&c) == NUSHBARET_COUNTS_BEST && c.info.total_low == cost);
    for (k = 0; k < 500; k++) {
        size_t at;
        c = given;
        for (at = 0; at < 8; at++) c.record.state[at] = drawn(&seed) % 3 ? drawn(&seed) % 5 : UINT64_MAX / (drawn(&seed) + 1);
        for (at = 0; at < LISTED; at++) c.plan[at] = (uint8_t)drawn(&seed);
        for (at = 0; at < c.columns; at++) c.column_numbers[at] = drawn(&seed) % 2 ? INT64_MIN : (int64_t)drawn(&seed);
        WANT(from(&c, 0) == NUSHBARET_COUNTS_BEST && c.info.total_low == cost);
    }
}

/* Persons and projects of ten places each at costs i * j: the greatest sum has the dearest ten at the dearest project. */
enum { PERSONS = 300, PLACES = 10, PROJECTS = PERSONS / PLACES };
static int64_t school_costs[PERSONS * PROJECTS], school_rows[PERSONS], school_columns[PROJECTS];
static uint32_t school_one[PERSONS], school_none[PROJECTS], school_places[PROJECTS];
static uint8_t school_plan[PERSONS * PROJECTS], school_row_marks[PERSONS], school_column_marks[PROJECTS];

int is_school_right(void) {
    struct nushbaret_counts_info info;
    uint64_t sum = 0;
    size_t i, j;
    int32_t code;
    for (i = 0; i < PERSONS; i++)
        for (j = 0; j < PROJECTS; j++) school_costs[i * PROJECTS + j] = (int64_t)((i + 1) * (j + 1));
    for (i = 0; i < PERSONS; i++) school_one[i] = 1, sum += (i + 1) * (i / PLACES + 1);
    for (j = 0; j < PROJECTS; j++) school_places[j] = PLACES;
    code = nushbaret_counts(NUSHBARET_MAX, school_one, 0, school_one, 0, school_costs, PERSONS * PROJECTS,
        school_one, PERSONS, school_one, PERSONS, school_none, PROJECTS, school_places, PROJECTS, school_none, 0,
        school_plan, PERSONS * PROJECTS, school_rows, PERSONS, school_columns, PROJECTS,
        school_row_marks, PERSONS, school_column_marks, PROJECTS, &info);
    return code == NUSHBARET_COUNTS_BEST && info.total_high == 0 && info.total_low == sum && blocks == 0;
}

/* The worked problem, in the stack of its thread. */
int are_counts_right(void) {
    struct counts c = worked();
    return solved(&c) == NUSHBARET_COUNTS_BEST && c.info.total_low == 4 && checked(&c) == NUSHBARET_COUNTS_BEST;
}

void test_counts(void) {
    judged();
    answered();
    all_refused();
    in_pieces(worked(), 4);
    in_pieces(ones(), 7);
}
