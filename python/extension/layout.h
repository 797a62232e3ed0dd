/* The structs of NumPy 1 and 2 that the extension reads: the fields of an array up to its flags, the head of its kind, and entries 0, 2 and
   93 of the table `_ARRAY_API`. It takes arrays only where entry 0 says so. tests/python/lap/test_layout.py compiles what is said here
   against NumPy's own headers. */
#ifndef NUSHBARET_LAYOUT_H
#define NUSHBARET_LAYOUT_H
#include <Python.h>

struct kind {
    Py_ssize_t references;
    PyTypeObject *type, *of_item;
    char letter, code, byte_order, unused;
    int number;
};
struct array {
    Py_ssize_t references;
    PyTypeObject *type;
    char *data;
    int dimensions;
    Py_ssize_t *shape, *steps;
    PyObject *base;
    struct kind *kind;
    int flags;
};
/* The numbers of kinds. Up to DOUBLES they are in NumPy's order; the two after it are other numbers there. */
enum { BOOLS, BYTES, UBYTES, SHORTS, USHORTS, INTS, UINTS, LONGS, ULONGS, LONG_LONGS, ULONG_LONGS, FLOATS, DOUBLES, KINDS, VALUES = 17,
    HALVES = 23 };
typedef PyObject *new_array(PyTypeObject *, int, const Py_ssize_t *, int, const Py_ssize_t *, void *, int, int, PyObject *);
enum { OF_VERSION = 0, OF_ARRAY = 2, OF_NEW = 93 };
enum { VERSION_1 = 0x1000009, VERSION_2 = 0x2000000 };

#endif
