/* What the files of the extension share: the structs of NumPy and of the library that they use, a matrix as a caller has it, and what each
   file gives the others.

   The extension is the short way from Python to the library, for CPython from 3.9 on by the limited API (abi3): linear_sum_assignment, a
   batch of such problems, the searches of `solve`, `k_best`, `bottleneck` and an Assigner, and questions about a plan. What it doesn't know,
   what the library refuses, and each fault go to the package's calls in Python: these answer, or raise. So nothing here raises but what
   Python itself raises where it has no memory, and Ctrl-C.

   It links with nothing: the package has loaded the library, and gives it the addresses of its exports. */
#ifndef NUSHBARET_EXTENSION_H
#define NUSHBARET_EXTENSION_H
#define PY_SSIZE_T_CLEAN
#define Py_LIMITED_API 0x03090000
#include <Python.h>
#include <stdint.h>
#include "layout.h"

#ifndef METH_FASTCALL
#define METH_FASTCALL 0x0080 /* in the limited API from 3.10 on, and the same in 3.9 */
#endif

/* What the library has, as c/nushbaret.h says. */
enum { BEST = 0, STOPPED = 21, UNDECIDED = 23, TIED = 24, ALONE = 25 };
#define MOST_SIDE 4194304
#define GREATEST_COST 1000000000000
/* No code of the library's: another way is to be taken, or there is an exception. */
#define LEFT (-1)

struct doubles_info {
    uint64_t place, persons, objects, person, object;
    uint32_t by_margin;
};
struct info {
    int64_t total;
    uint64_t place, persons, objects, person, object;
};
struct record {
    uint32_t stage, shift;
    int64_t slackness;
    uint64_t bids, passes;
    uint32_t dummy_bids, flags;
    uint64_t arc_scans;
};
typedef int32_t doubles_call(uint32_t, size_t, size_t, const double *, size_t, uint32_t *, size_t, uint32_t *, size_t, double *, size_t,
    struct doubles_info *);
typedef int32_t dense_from_call(uint32_t, size_t, size_t, const int64_t *, size_t, const int64_t *, size_t, uint32_t *, size_t, uint32_t *,
    size_t, int64_t *, size_t, uint64_t, struct record *, struct info *);
typedef int32_t sparse_from_call(uint32_t, size_t, size_t, const uint32_t *, size_t, const uint32_t *, size_t, const int64_t *, size_t,
    const int64_t *, size_t, uint32_t *, size_t, uint32_t *, size_t, int64_t *, size_t, uint64_t, struct record *, struct info *);
typedef int32_t check_call(uint32_t, size_t, size_t, const uint32_t *, size_t, const uint32_t *, size_t, const int64_t *, size_t,
    const uint32_t *, size_t, const int64_t *, size_t, struct info *);
typedef int32_t ranked_call(uint32_t, size_t, size_t, const uint32_t *, size_t, const uint32_t *, size_t, const int64_t *, size_t,
    const uint32_t *, size_t, const int64_t *, size_t, uint64_t, uint32_t *, size_t, int64_t *, size_t, size_t *, struct info *);
typedef int32_t unique_call(uint32_t, size_t, size_t, const uint32_t *, size_t, const uint32_t *, size_t, const int64_t *, size_t,
    const uint32_t *, size_t, const int64_t *, size_t, uint32_t *, size_t, int32_t *, size_t, struct info *);
typedef int32_t next_call(uint32_t, size_t, size_t, const uint32_t *, size_t, const uint32_t *, size_t, const int64_t *, size_t,
    const uint32_t *, size_t, const int64_t *, size_t, uint64_t, uint32_t *, size_t, int64_t *, struct info *);
typedef int32_t bottleneck_call(uint32_t, size_t, size_t, const uint32_t *, size_t, const uint32_t *, size_t, const int64_t *, size_t,
    uint32_t *, size_t, uint32_t *, size_t, uint32_t *, size_t, uint64_t, struct record *, struct info *);
typedef int32_t check_doubles_call(uint32_t, size_t, size_t, const double *, size_t, const uint32_t *, size_t, const double *, size_t,
    struct doubles_info *);

/* What a module has of its own, so that each interpreter may have one. */
typedef struct {
    PyMethodDef method;
    char *text;              /* its docstring */
    PyObject *longer;        /* Python's call */
    PyObject *connect;       /* what gives the library and NumPy, once they are there */
    doubles_call *doubles;
    dense_from_call *dense_from;
    sparse_from_call *sparse_from;
    check_doubles_call *check_doubles;
    check_call *check;
    ranked_call *ranked;
    unique_call *unique;
    next_call *next;
    bottleneck_call *bottleneck;
    PyTypeObject *array, *float64;
    new_array *make;
    PyObject *manager, *blocks, *values, *places, *as_array; /* names of what a frame of pandas has */
} State;

/* A plan of before: how many rows its problem had; as bytes an object for each person, and a price for each object or none; the costs of its
   pairs, rows rising; and the places of whole numbers, else -1. */
typedef struct {
    Py_ssize_t n_rows, objects_size, prices_size;
    const char *objects, *prices;
    PyObject *paid;
    int places;
} Plan;

/* Costs as a caller has them: an array's numbers, a list's rows, or a frame's blocks. The persons are the fewer: where they are columns, it
   is turned. */
typedef struct {
    Py_ssize_t n, m, person_step, object_step;
    const char *data;
    PyObject *rows, *blocks, *owner; /* a list; a tuple, of which this has a reference; what keeps `data`, likewise */
    double forbids;                  /* what None stands for */
    double end;                      /* when the call has to end, by the clock; infinite where it hasn't */
    const Plan *earlier;             /* where the search begins, or what is asked about; NULL where there is none */
    Py_ssize_t plans;                /* how many of the first plans are asked for */
    uint64_t arc_scans;              /* and with how many arc scans, as of a next plan */
    int kind, swapped, turned, as_printed, gives_arrays;
} Matrix;

/* Pairs, person by person, from starts[i] to starts[i + 1], numbers from 1 on; and the search's answer. `costs` are doubles, and `whole` what
   the library gets. */
struct pairs {
    size_t n, m, count;
    uint32_t *persons, *objects, *found, *spare, *owners;
    double *costs;
    int64_t *whole, *prices;
    size_t *starts;
    void *taken;
};

/* Memory of a call. `costs` is last, and is there only if they are copied. */
typedef struct {
    double *prices;
    int64_t *rows, *columns;
    uint32_t *objects, *persons, *owners;
    double *costs;
    void *taken;
} Room;

/* Small problems need no more than this, which stands on the stack. */
enum { SPARE = 2048 };

/* ---- Where each way is the sooner one, as bench/doors.py measures ---- */

/* From so many costs on the interpreter's lock is released, which takes as long as a few of them. */
enum { FEW = 2000 };
/* From so many costs on whole numbers go by the call for whole numbers. */
enum { FEW_WHOLE = 100 };
/* A search of so many persons times pairs may take long: `solve` leaves it to Python, which does it in pieces that Ctrl-C ends. */
#define LONG ((double)((int64_t)1 << 27))
/* The same of doubles in linear_sum_assignment, since these mostly take a tenth of a second: from here on they are rounded first, and
   searched in pieces. */
#define LONGEST ((double)((int64_t)1 << 33))
/* The arc scans of a search's first piece, which ends most of them within some tenths of a second; and of the next ones at least, in
   addition to so many passes over all pairs. */
#define FIRST_ARC_SCANS 500000000u
#define ARC_SCANS 20000000u
enum { PASSES = 10 };

/* Doubles hold all whole numbers up to this. */
#define WHOLE ((int64_t)1 << 53)
#define MOST_DOUBLE 1.7976931348623157e308
/* What is added to a double of less than 2^51 rounds it to a whole number, and is taken off again. */
#define TO_WHOLE 0x1.8p52

static inline double most_arc_scans(const Matrix *matrix) {
    return (double)matrix->n * (double)matrix->n * (double)matrix->m;
}

/* reading.c */
int is_array(State *state, PyObject *costs, int dimensions);
void of_array(const struct array *array, int from, Matrix *matrix);
void turn(Matrix *matrix, int may_turn);
int look_at(State *state, PyObject *costs, Matrix *matrix, int may_turn);
void let_go(Matrix *matrix);
int is_plain(const Matrix *matrix);
int has_whole_kind(const Matrix *matrix);
const double *costs_of(const State *state, const Matrix *matrix, const Room *room);
const int64_t *whole_costs_of(const Matrix *matrix, int64_t *to);
int as_whole(const double *costs, size_t count, int64_t *to);

/* numbers.c */
int of_numbers(const Matrix *matrix, const char *from, Py_ssize_t step, Py_ssize_t count, double *to);
int whole_of_numbers(int kind, int swapped, const char *from, Py_ssize_t step, Py_ssize_t count, int64_t *to);

/* printed.c */
void as_printed(const float *from, Py_ssize_t step, Py_ssize_t count, double *to);
PyObject *printed(PyObject *module, PyObject *arguments);

/* searching.c */
void ask(const State *state);
int is_ready(const State *state);
double now(void);
int is_over(double end);
int take(Room *room, const Matrix *matrix, int copies, double *spare);
int32_t search(const State *state, const Matrix *matrix, int maximize, const double *costs, const Room *room, uint32_t *by_margin);
int32_t solve(const State *state, const Matrix *matrix, int maximize, const double *costs, const Room *room, uint32_t *by_margin);
int32_t solve_whole(const State *state, const Matrix *matrix, int maximize, const int64_t *costs, const Room *room, struct info *info);

/* paths.c */
int first_plan(const struct pairs *pairs, int maximize);

/* rounded.c */
int in_fixed_point(const double *costs, size_t count, int *shift, int64_t *to);
int32_t solve_rounded(const State *state, const Matrix *matrix, int maximize, const double *costs, const Room *room);

/* answering.c */
void pair_up(const Matrix *matrix, const Room *room);
PyObject *pair_of(PyObject *first, PyObject *second);
PyObject *as_list(const int64_t *numbers, Py_ssize_t count);
PyObject *as_given(const State *state, const Matrix *matrix, const int64_t *numbers);
PyObject *given_both(const State *state, const Matrix *matrix, const Room *room);
PyObject *rows_and_columns(const State *state, const Matrix *matrix, const Room *room);
PyObject *paid(const Matrix *matrix, const double *costs, const int64_t *whole, const Room *room);
PyObject *found_of(const State *state, const Matrix *matrix, const Room *room, const double *costs, const int64_t *whole, int places,
    const struct info *info);
PyObject *batch(PyObject *module, PyObject *arguments);

/* found.c */
int places_of(const double *costs, size_t count, int64_t *whole);
PyObject *found(PyObject *module, PyObject *arguments);

/* What is made of costs as whole numbers of so many decimal places; and of doubles, where `whole` has room for as many whole numbers. NULL
   where the longer way is to be taken. */
typedef PyObject *of_whole(const State *state, const Matrix *matrix, int maximize, const int64_t *whole, const Room *room, int places);
typedef PyObject *of_doubles(const State *state, const Matrix *matrix, int maximize, const double *costs, const Room *room, int64_t *whole);

/* ranked.c */
of_whole first_plans;
of_doubles first_of_doubles;

/* questions.c */
of_whole is_only, next_plan, best_worst;
of_doubles is_only_of_doubles, next_of_doubles, best_worst_of_doubles;

/* listed.c */
PyObject *listed(PyObject *module, PyObject *arguments);
PyObject *assigned_worthy(State *state, const Matrix *matrix, int maximize, double limit, const Room *room);

#endif
