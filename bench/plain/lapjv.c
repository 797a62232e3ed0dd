/* Jonker and Volgenant's method (A shortest augmenting path algorithm for dense and sparse linear assignment problems,
   Computing 38, 1987) in plain C on 64-bit numbers, for n rows and m >= n columns of a full matrix: column reduction and
   reduction transfer (of squares), augmenting row reduction twice, and a shortest augmenting path for each row that is left.
   It checks nothing and returns the sum alone with the columns, numbered from 1. */
#include <stdint.h>
#include <stdlib.h>

enum { NONE = -1 };

struct state {
    size_t n, m;
    const int64_t *costs;
    int64_t *prices, *distances;
    int32_t *columns, *rows, *free_rows, *order, *from;
    size_t free_count;
};

static const int64_t *row_of(const struct state *s, int32_t row) { return s->costs + (size_t)row * s->m; }

/* Each column's least cost is its price, and its row gets it where the row has none. */
static void reduce_columns(struct state *s) {
    size_t i, j;
    int32_t *counts = calloc(s->n, sizeof *counts), *least = calloc(s->m, sizeof *least);
    for (j = 0; j < s->m; j++) s->prices[j] = s->costs[j];
    for (i = 1; i < s->n; i++) {
        const int64_t *row = row_of(s, (int32_t)i);
        for (j = 0; j < s->m; j++)
            if (row[j] < s->prices[j]) s->prices[j] = row[j], least[j] = (int32_t)i;
    }
    for (j = s->m; j-- > 0;)
        if (counts[least[j]]++ == 0) s->columns[least[j]] = (int32_t)j, s->rows[j] = least[j];
    for (i = 0; i < s->n; i++) {
        if (counts[i] == 0) {
            s->free_rows[s->free_count++] = (int32_t)i;
        } else if (counts[i] == 1 && s->m > 1) {
            const int64_t *row = row_of(s, (int32_t)i);
            size_t own = (size_t)s->columns[i];
            int64_t second = INT64_MAX;
            for (j = 0; j < s->m; j++)
                if (j != own && row[j] - s->prices[j] < second) second = row[j] - s->prices[j];
            s->prices[own] -= second;
        }
    }
    free(counts), free(least);
}

/* Rows without a column take their best; who loses one goes on at once where a price fell. */
static void reduce_rows(struct state *s) {
    size_t k = 0, count = s->free_count, j;
    s->free_count = 0;
    while (k < count) {
        int32_t row = s->free_rows[k++], owner;
        const int64_t *costs = row_of(s, row);
        int64_t best = costs[0] - s->prices[0], second = INT64_MAX;
        size_t first = 0, other = 0;
        for (j = 1; j < s->m; j++) {
            int64_t reduced = costs[j] - s->prices[j];
            if (reduced < second) {
                if (reduced >= best) second = reduced, other = j;
                else second = best, other = first, best = reduced, first = j;
            }
        }
        owner = s->rows[first];
        if (best < second) s->prices[first] -= s->m > 1 ? second - best : 0;
        else if (owner != NONE) first = other, owner = s->rows[first];
        s->columns[row] = (int32_t)first, s->rows[first] = row;
        if (owner == NONE) continue;
        if (best < second) s->free_rows[--k] = owner;
        else s->free_rows[s->free_count++] = owner;
    }
}

/* Gives a row a column along a shortest path, and lowers the prices of the columns scanned. */
static void augment(struct state *s, int32_t free_row) {
    size_t j, low = 0, up = 0, last = 0, k;
    int64_t least = 0;
    int32_t end = NONE, row;
    for (j = 0; j < s->m; j++) {
        s->distances[j] = row_of(s, free_row)[j] - s->prices[j];
        s->from[j] = free_row, s->order[j] = (int32_t)j;
    }
    while (end == NONE) {
        if (low == up) {
            last = low;
            least = s->distances[s->order[up++]];
            for (k = up; k < s->m; k++) {
                int32_t column = s->order[k];
                if (s->distances[column] > least) continue;
                if (s->distances[column] < least) up = low, least = s->distances[column];
                s->order[k] = s->order[up], s->order[up++] = column;
            }
            for (k = low; k < up && end == NONE; k++)
                if (s->rows[s->order[k]] == NONE) end = s->order[k];
        }
        while (end == NONE && low < up) {
            int32_t column = s->order[low++];
            const int64_t *costs;
            int64_t less;
            row = s->rows[column];
            costs = row_of(s, row);
            less = costs[column] - s->prices[column] - least;
            for (k = up; k < s->m; k++) {
                int32_t next = s->order[k];
                int64_t reduced = costs[next] - s->prices[next] - less;
                if (reduced >= s->distances[next]) continue;
                s->distances[next] = reduced, s->from[next] = row;
                if (reduced > least) continue;
                if (s->rows[next] == NONE) {
                    end = next;
                    break;
                }
                s->order[k] = s->order[up], s->order[up++] = next;
            }
        }
    }
    for (k = 0; k < last; k++) {
        int32_t column = s->order[k];
        s->prices[column] += s->distances[column] - least;
    }
    do {
        int32_t before;
        row = s->from[end];
        s->rows[end] = row;
        before = s->columns[row], s->columns[row] = end, end = before;
    } while (row != free_row);
}

int64_t plain_c(size_t n, size_t m, const int64_t *costs, uint32_t *columns) {
    struct state s = {n, m, costs, NULL, NULL, NULL, NULL, NULL, NULL, NULL, 0};
    int64_t sum = 0;
    size_t i, j, count;
    s.prices = calloc(m, sizeof *s.prices), s.distances = malloc(m * sizeof *s.distances);
    s.columns = malloc(n * sizeof *s.columns), s.rows = malloc(m * sizeof *s.rows);
    s.free_rows = malloc(n * sizeof *s.free_rows), s.order = malloc(m * sizeof *s.order), s.from = malloc(m * sizeof *s.from);
    for (i = 0; i < n; i++) s.columns[i] = NONE;
    for (j = 0; j < m; j++) s.rows[j] = NONE;
    if (n == m) {
        reduce_columns(&s);
    } else {
        for (i = 0; i < n; i++) s.free_rows[s.free_count++] = (int32_t)i;
    }
    if (m > 1) reduce_rows(&s), reduce_rows(&s);
    count = s.free_count;
    for (i = 0; i < count; i++) augment(&s, s.free_rows[i]);
    for (i = 0; i < n; i++) sum += row_of(&s, (int32_t)i)[s.columns[i]], columns[i] = (uint32_t)(s.columns[i] + 1);
    free(s.prices), free(s.distances), free(s.columns), free(s.rows), free(s.free_rows), free(s.order), free(s.from);
    return sum;
}
