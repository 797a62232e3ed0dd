/* From what a caller gives to a matrix, and from this to the numbers that the library takes: arrays of NumPy's of any kind and order, frames
   of pandas, lists of rows. */
#include <math.h>
#include <string.h>
#include "extension.h"

/* Lets the fewer be the persons. Where a square `may_turn`, it is turned if its columns stand one after the other, and needs no copy then. */
void turn(Matrix *matrix, int may_turn) {
    const int by_columns = matrix->n == matrix->m && matrix->person_step == 8 && matrix->object_step != 8;
    matrix->turned = matrix->n > matrix->m || (may_turn && by_columns);
    if (matrix->turned) {
        Py_ssize_t held = matrix->n;
        matrix->n = matrix->m;
        matrix->m = held;
        held = matrix->person_step;
        matrix->person_step = matrix->object_step;
        matrix->object_step = held;
    }
}

/* ---- Arrays ---- */

/* Whether a kind of array is one whose numbers this reads. */
static int is_known(const struct kind *kind) {
    return (kind->number >= BOOLS && kind->number < KINDS) || kind->number == HALVES || kind->number == VALUES;
}

/* Whether this is an array of so many dimensions that this reads, maybe of a kind of its own, whose memory SciPy reads too. Where NumPy was
   loaded only now, it is looked for. */
int is_array(State *state, PyObject *costs, int dimensions) {
    if (!state->array) ask(state);
    const struct array *array = (const struct array *)costs;
    return state->array && PyObject_TypeCheck(costs, state->array) && array->dimensions == dimensions && is_known(array->kind);
}

/* The matrix that an array is from some dimension on. */
void of_array(const struct array *array, int from, Matrix *matrix) {
    matrix->rows = matrix->blocks = matrix->owner = NULL;
    matrix->as_printed = 0;
    matrix->gives_arrays = 1;
    matrix->data = array->data;
    matrix->kind = array->kind->number;
    matrix->swapped = array->kind->byte_order == '>';
    matrix->n = array->shape[from];
    matrix->m = array->shape[from + 1];
    matrix->person_step = array->steps[from];
    matrix->object_step = array->steps[from + 1];
}

/* ---- Frames ---- */

/* An attribute, or NULL without an exception. */
static PyObject *own(PyObject *held, PyObject *name) {
    PyObject *found = held ? PyObject_GetAttr(held, name) : NULL;
    if (!found) PyErr_Clear();
    return found;
}

/* The numbers of a frame's block, one row for each of its columns; NULL where they are no array that this reads. */
static const struct array *numbers_of(State *state, PyObject *block, PyObject **values) {
    *values = own(block, state->values);
    if (*values && is_array(state, *values, 2)) return (const struct array *)*values;
    Py_XDECREF(*values);
    *values = NULL;
    return NULL;
}

/* The matrix that a frame is all of whose columns stand in one array. */
static int of_block(State *state, PyObject *block, Matrix *matrix) {
    PyObject *values;
    const struct array *array = numbers_of(state, block, &values);
    if (!array) return 0;
    of_array(array, 0, matrix);
    matrix->owner = values;
    matrix->n = array->shape[1];
    matrix->m = array->shape[0];
    matrix->person_step = array->steps[1];
    matrix->object_step = array->steps[0];
    return 1;
}

/* The matrix that a frame is whose columns stand in several arrays, which are read later. */
static int of_blocks(State *state, PyObject *blocks, Matrix *matrix) {
    Py_ssize_t n = -1, m = 0;
    for (Py_ssize_t k = 0; k < PyTuple_Size(blocks); k++) {
        PyObject *values;
        const struct array *array = numbers_of(state, PyTuple_GetItem(blocks, k), &values);
        const int good = array && (n < 0 || array->shape[1] == n);
        if (array) {
            n = array->shape[1];
            m += array->shape[0];
            Py_DECREF(values);
        }
        if (!good) return 0;
    }
    memset(matrix, 0, sizeof *matrix);
    matrix->kind = DOUBLES;
    matrix->gives_arrays = 1;
    matrix->n = n;
    matrix->m = m;
    Py_INCREF(blocks);
    matrix->blocks = blocks;
    return n >= 0;
}

/* The matrix that a frame of pandas is, by what its manager has of its blocks. */
static int of_frame(State *state, PyObject *frame, Matrix *matrix) {
    if (!state->array) ask(state);
    PyObject *manager = state->array ? own(frame, state->manager) : NULL, *blocks = own(manager, state->blocks);
    const Py_ssize_t count = blocks && PyTuple_CheckExact(blocks) ? PyTuple_Size(blocks) : 0;
    const int good = count == 1 ? of_block(state, PyTuple_GetItem(blocks, 0), matrix) : count > 1 && of_blocks(state, blocks, matrix);
    Py_XDECREF(blocks);
    Py_XDECREF(manager);
    return good;
}

/* ---- Lists ---- */

/* Whether this is a row: a list, a tuple, or an array of one dimension. */
static int is_row(State *state, PyObject *row) {
    return PyList_CheckExact(row) || PyTuple_CheckExact(row) || (state->array && Py_TYPE(row) == state->array && is_array(state, row, 1));
}

static Py_ssize_t length_of(PyObject *row) {
    return PyList_CheckExact(row) ? PyList_Size(row) : PyTuple_CheckExact(row) ? PyTuple_Size(row) : *((const struct array *)row)->shape;
}

/* The matrix that a list of rows is, which are read later. */
static int of_list(State *state, PyObject *rows, Matrix *matrix) {
    PyObject *first = PyList_Size(rows) > 0 ? PyList_GetItem(rows, 0) : NULL;
    if (first && !PyList_CheckExact(first) && !state->array) ask(state);
    if (!first || !is_row(state, first)) return 0;
    memset(matrix, 0, sizeof *matrix);
    matrix->rows = rows;
    matrix->kind = DOUBLES;
    matrix->n = PyList_Size(rows);
    matrix->m = length_of(first);
    for (Py_ssize_t i = 0; i < matrix->n && !matrix->gives_arrays; i++)
        matrix->gives_arrays = state->array && Py_TYPE(PyList_GetItem(rows, i)) == state->array;
    return 1;
}

/* ---- Any of these ---- */

/* Whether costs are a matrix that this reads. Then `let_go` has to follow. */
int look_at(State *state, PyObject *costs, Matrix *matrix, int may_turn) {
    int known;
    if (PyList_CheckExact(costs)) {
        known = of_list(state, costs, matrix);
    } else if (state->array && PyObject_TypeCheck(costs, state->array)) {
        known = is_array(state, costs, 2);
        if (known) of_array((const struct array *)costs, 0, matrix);
    } else if (PyTuple_CheckExact(costs) || PyUnicode_Check(costs) || costs == Py_None) {
        known = 0;
    } else {
        known = is_array(state, costs, 2);
        if (known) of_array((const struct array *)costs, 0, matrix);
        else known = of_frame(state, costs, matrix);
    }
    if (!known) return 0;
    matrix->end = INFINITY;
    matrix->earlier = NULL;
    turn(matrix, may_turn);
    if (matrix->n > 0 && matrix->m <= MOST_SIDE) return 1;
    let_go(matrix);
    return 0;
}

void let_go(Matrix *matrix) {
    Py_CLEAR(matrix->owner);
    Py_CLEAR(matrix->blocks);
}

static int stands_so(const Matrix *matrix, int kind) {
    return !matrix->rows && !matrix->blocks && matrix->kind == kind && !matrix->swapped && (matrix->object_step == 8 || matrix->m == 1)
        && (matrix->person_step == 8 * matrix->m || matrix->n == 1) && (uintptr_t)matrix->data % 8 == 0;
}

/* Whether the library can read a matrix where it stands: doubles, person by person. */
int is_plain(const Matrix *matrix) {
    return stands_so(matrix, DOUBLES);
}

/* Whether all costs are whole numbers by their kind. */
int has_whole_kind(const Matrix *matrix) {
    return !matrix->rows && !matrix->blocks && matrix->kind < FLOATS;
}

/* ---- Copies ---- */

/* A float, an int that is a double, a bool, or None for what forbids a pair; 0 where the value is none of these. No code of Python's
   runs. */
static int of_value(const State *state, const Matrix *matrix, PyObject *value, double *to) {
    if (PyFloat_CheckExact(value) || (state->float64 && Py_TYPE(value) == state->float64)) {
        *to = PyFloat_AsDouble(value);
        return 1;
    }
    if (value == Py_None) {
        *to = matrix->forbids;
        return 1;
    }
    if (!PyLong_CheckExact(value) && !PyBool_Check(value)) return 0;
    int beyond;
    const long long number = PyLong_AsLongLongAndOverflow(value, &beyond);
    *to = (double)number;
    return !beyond && number <= WHOLE && number >= -WHOLE;
}

/* The values of an array of objects. */
static int of_values(const State *state, const Matrix *matrix, const char *from, Py_ssize_t step, Py_ssize_t count, double *to) {
    for (Py_ssize_t k = 0; k < count; k++) {
        PyObject *value;
        memcpy(&value, from + k * step, sizeof value);
        if (!value || !of_value(state, matrix, value, to + k)) return 0;
    }
    return 1;
}

static int of_any(const State *state, const Matrix *matrix, const char *from, Py_ssize_t step, Py_ssize_t count, double *to) {
    return matrix->kind == VALUES ? of_values(state, matrix, from, step, count, to) : of_numbers(matrix, from, step, count, to);
}

/* How many rows and columns are copied at a time where those that stand apart are neighbours in memory. */
enum { WIDTH = 64 };

/* An array's numbers, person by person. Where a person's costs stand far apart, some persons at a time go through a small block. */
static int copy_array(const State *state, const Matrix *matrix, double *to) {
    double block[WIDTH];
    const Py_ssize_t n = matrix->n, m = matrix->m, by_person = matrix->person_step, by_object = matrix->object_step;
    int good = 1;
    if (by_person == m * by_object) return of_any(state, matrix, matrix->data, by_object, n * m, to);
    if (llabs(by_object) <= llabs(by_person) || n == 1) {
        for (Py_ssize_t i = 0; i < n && good; i++) good = of_any(state, matrix, matrix->data + i * by_person, by_object, m, to + i * m);
        return good;
    }
    for (Py_ssize_t first = 0; first < n; first += WIDTH) {
        const Py_ssize_t count = n - first < WIDTH ? n - first : WIDTH;
        for (Py_ssize_t j = 0; j < m && good; j++) {
            good = of_any(state, matrix, matrix->data + first * by_person + j * by_object, by_person, count, block);
            for (Py_ssize_t k = 0; k < count; k++) to[(first + k) * m + j] = block[k];
        }
    }
    return good;
}

/* A row of a list or of a tuple, whose numbers go so many places apart. */
static int copy_row(const State *state, const Matrix *matrix, PyObject *row, Py_ssize_t count, double *to, Py_ssize_t apart) {
    const int is_list = PyList_CheckExact(row);
    for (Py_ssize_t k = 0; k < count; k++)
        if (!of_value(state, matrix, is_list ? PyList_GetItem(row, k) : PyTuple_GetItem(row, k), to + k * apart)) return 0;
    return 1;
}

/* A row that is an array. */
static int copy_array_row(const State *state, const Matrix *matrix, const struct array *row, double *to, Py_ssize_t apart) {
    double block[WIDTH];
    Matrix own = *matrix;
    own.kind = row->kind->number;
    own.swapped = row->kind->byte_order == '>';
    for (Py_ssize_t first = 0; first < *row->shape; first += WIDTH) {
        const Py_ssize_t count = *row->shape - first < WIDTH ? *row->shape - first : WIDTH;
        if (own.kind == HALVES && own.as_printed) return 0;
        if (!of_any(state, &own, row->data + first * *row->steps, *row->steps, count, block)) return 0;
        for (Py_ssize_t k = 0; k < count; k++) to[(first + k) * apart] = block[k];
    }
    return 1;
}

/* A list's numbers, person by person. */
static int copy_list(State *state, const Matrix *matrix, double *to) {
    const int turned = matrix->turned;
    const Py_ssize_t count = turned ? matrix->m : matrix->n, length = turned ? matrix->n : matrix->m, apart = turned ? matrix->m : 1;
    int good = PyList_Size(matrix->rows) == count;
    for (Py_ssize_t i = 0; i < count && good; i++) {
        PyObject *row = PyList_GetItem(matrix->rows, i);
        double *there = to + (turned ? i : i * length);
        good = is_row(state, row) && length_of(row) == length;
        if (good && (PyList_CheckExact(row) || PyTuple_CheckExact(row))) good = copy_row(state, matrix, row, length, there, apart);
        else if (good) good = copy_array_row(state, matrix, (const struct array *)row, there, apart);
    }
    return good;
}

/* The place of a column of a frame's block. */
static int64_t place_of(const struct array *places, Py_ssize_t column) {
    int64_t place;
    memcpy(&place, places->data + column * *places->steps, sizeof place);
    return place;
}

/* Whether each column of a block has a place in the frame. */
static int are_places(const struct array *places, Py_ssize_t count, Py_ssize_t columns) {
    int good = places->kind->number == LONGS && *places->shape == count;
    for (Py_ssize_t k = 0; k < count && good; k++) good = place_of(places, k) >= 0 && place_of(places, k) < columns;
    return good;
}

/* Some columns of a frame, which stand in one of its arrays, each at its place: a few neighbours of each line at a time. */
static int copy_block(const State *state, const Matrix *matrix, const struct array *numbers, const struct array *places, double *to) {
    const Py_ssize_t rows = matrix->turned ? matrix->m : matrix->n, columns = matrix->turned ? matrix->n : matrix->m;
    const Py_ssize_t by_row = matrix->turned ? 1 : matrix->m, by_column = matrix->turned ? matrix->m : 1;
    const int line = llabs(numbers->steps[0]) < llabs(numbers->steps[1]), along = !line;
    double block[WIDTH];
    Matrix own = *matrix;
    own.kind = numbers->kind->number;
    own.swapped = numbers->kind->byte_order == '>';
    if (!are_places(places, numbers->shape[0], columns) || numbers->shape[1] != rows || (own.kind == HALVES && own.as_printed)) return 0;
    for (Py_ssize_t first = 0; first < numbers->shape[along]; first += WIDTH) {
        const Py_ssize_t count = numbers->shape[along] - first < WIDTH ? numbers->shape[along] - first : WIDTH;
        for (Py_ssize_t k = 0; k < numbers->shape[line]; k++) {
            const char *from = numbers->data + k * numbers->steps[line] + first * numbers->steps[along];
            if (!of_any(state, &own, from, numbers->steps[along], count, block)) return 0;
            for (Py_ssize_t i = first; i < first + count; i++)
                to[(line ? k : i) * by_row + place_of(places, line ? i : k) * by_column] = block[i - first];
        }
    }
    return 1;
}

/* A frame's numbers, person by person. */
static int copy_blocks(State *state, const Matrix *matrix, double *to) {
    int good = 1;
    for (Py_ssize_t k = 0; k < PyTuple_Size(matrix->blocks) && good; k++) {
        PyObject *block = PyTuple_GetItem(matrix->blocks, k), *values, *places = own(block, state->places);
        PyObject *numbers = own(places, state->as_array);
        const struct array *array = numbers_of(state, block, &values);
        good = array && numbers && is_array(state, numbers, 1)
            && copy_block(state, matrix, array, (const struct array *)numbers, to);
        Py_XDECREF(values);
        Py_XDECREF(numbers);
        Py_XDECREF(places);
    }
    return good;
}

/* The costs as doubles, as the library takes them; NULL where they aren't doubles. */
const double *costs_of(const State *state, const Matrix *matrix, const Room *room) {
    if (!room->costs) return (const double *)matrix->data;
    State *held = (State *)state;
    if (matrix->rows) return copy_list(held, matrix, room->costs) ? room->costs : NULL;
    if (matrix->blocks) return copy_blocks(held, matrix, room->costs) ? room->costs : NULL;
    return copy_array(state, matrix, room->costs) ? room->costs : NULL;
}

/* Costs of a whole kind as the library takes them, which are written unless they stand so; NULL where one has more than 63 bits. */
const int64_t *whole_costs_of(const Matrix *matrix, int64_t *to) {
    if (stands_so(matrix, LONGS) || stands_so(matrix, LONG_LONGS)) return (const int64_t *)matrix->data;
    const Py_ssize_t n = matrix->n, m = matrix->m, by_person = matrix->person_step, by_object = matrix->object_step;
    int good = 1;
    if (!to) return NULL;
    if (llabs(by_object) <= llabs(by_person) || n == 1) {
        for (Py_ssize_t i = 0; i < n && good; i++)
            good = whole_of_numbers(matrix->kind, matrix->swapped, matrix->data + i * by_person, by_object, m, to + i * m);
        return good ? to : NULL;
    }
    for (Py_ssize_t first = 0; first < n; first += WIDTH) {
        const Py_ssize_t count = n - first < WIDTH ? n - first : WIDTH;
        int64_t block[WIDTH];
        for (Py_ssize_t j = 0; j < m && good; j++) {
            good = whole_of_numbers(matrix->kind, matrix->swapped, matrix->data + first * by_person + j * by_object, by_person, count, block);
            for (Py_ssize_t k = 0; k < count; k++) to[(first + k) * m + j] = block[k];
        }
    }
    return good ? to : NULL;
}

/* Whether doubles are whole numbers of the library's range; these are written. Mostly the first one shows that they aren't. */
int as_whole(const double *costs, size_t count, int64_t *to) {
    for (size_t begin = 0; begin < count; begin += 256) {
        const size_t end = count - begin < 256 ? count : begin + 256;
        int good = 1;
        for (size_t k = begin; k < end; k++) {
            const double nearest = costs[k] + TO_WHOLE - TO_WHOLE;
            good &= nearest == costs[k] && fabs(nearest) <= (double)GREATEST_COST;
            to[k] = (int64_t)nearest;
        }
        if (!good) return 0;
    }
    return 1;
}
