"""What the extension says of NumPy's structs, compiled with NumPy's own headers: each offset that it uses, and the
numbers of kinds."""
import pathlib
import shutil
import subprocess
import sysconfig
import tempfile
import unittest

from optional import np

EXTENSION = pathlib.Path(__file__).resolve().parents[3] / "python" / "extension"
CHECKED = """
#define PY_SSIZE_T_CLEAN
#include <Python.h>
#define NPY_NO_DEPRECATED_API NPY_1_7_API_VERSION
#define NPY_TARGET_VERSION NPY_1_19_API_VERSION
#include <numpy/arrayobject.h>
#include <stddef.h>
#include "layout.h"

#define SAME(own, field, theirs, other) _Static_assert(offsetof(struct own, field) == offsetof(theirs, other) \\
    && sizeof(((struct own *)0)->field) == sizeof(((theirs *)0)->other), #own " " #field)
SAME(array, type, PyArrayObject_fields, ob_base.ob_type);
SAME(array, data, PyArrayObject_fields, data);
SAME(array, dimensions, PyArrayObject_fields, nd);
SAME(array, shape, PyArrayObject_fields, dimensions);
SAME(array, steps, PyArrayObject_fields, strides);
SAME(array, base, PyArrayObject_fields, base);
SAME(array, kind, PyArrayObject_fields, descr);
SAME(array, flags, PyArrayObject_fields, flags);
SAME(kind, type, PyArray_Descr, ob_base.ob_type);
SAME(kind, of_item, PyArray_Descr, typeobj);
SAME(kind, letter, PyArray_Descr, kind);
SAME(kind, code, PyArray_Descr, type);
SAME(kind, byte_order, PyArray_Descr, byteorder);
SAME(kind, number, PyArray_Descr, type_num);
_Static_assert(sizeof(Py_ssize_t) == sizeof(npy_intp) && sizeof(long) == 8, "sizes");
#define NUMBER(own, theirs) _Static_assert((int)own == (int)theirs, #own)
NUMBER(BOOLS, NPY_BOOL); NUMBER(BYTES, NPY_BYTE); NUMBER(UBYTES, NPY_UBYTE); NUMBER(SHORTS, NPY_SHORT);
NUMBER(USHORTS, NPY_USHORT); NUMBER(INTS, NPY_INT); NUMBER(UINTS, NPY_UINT); NUMBER(LONGS, NPY_LONG);
NUMBER(ULONGS, NPY_ULONG); NUMBER(LONG_LONGS, NPY_LONGLONG);
NUMBER(ULONG_LONGS, NPY_ULONGLONG); NUMBER(FLOATS, NPY_FLOAT); NUMBER(DOUBLES, NPY_DOUBLE); NUMBER(VALUES, NPY_OBJECT);
NUMBER(HALVES, NPY_HALF);
"""


@unittest.skipUnless(np, "NumPy isn't there")
class Layout(unittest.TestCase):
    def compiled(self, text):
        """What the compiler says of a program."""
        headers = pathlib.Path(sysconfig.get_path("include"))
        if not shutil.which("cc") or not (headers / "Python.h").exists():
            self.skipTest("no C compiler, or no Python.h")
        include = np.get_include()
        if not (pathlib.Path(include) / "numpy" / "arrayobject.h").exists():
            self.skipTest("NumPy has no headers here")
        with tempfile.TemporaryDirectory() as folder:
            path = pathlib.Path(folder, "layout.c")
            path.write_text(text)
            folders = [f"-I{folder}" for folder in (headers, include, EXTENSION)]
            words = ["cc", "-std=c11", "-fsyntax-only", *folders, str(path)]
            ran = subprocess.run(words, capture_output=True, text=True)
        return ran.stderr if ran.returncode else ""

    def test_offsets_and_kinds(self):
        self.assertEqual(self.compiled(CHECKED), "")

    def test_who_judges_sees_another_offset(self):
        for wrong in ("SAME(array, data, PyArrayObject_fields, dimensions);", "NUMBER(FLOATS, NPY_DOUBLE);",
                      "SAME(kind, number, PyArray_Descr, type);"):
            self.assertIn("static assertion failed", self.compiled(CHECKED + wrong))

    def test_entries_of_the_table(self):
        """The entries that are used are those that NumPy's own macros use."""
        text = pathlib.Path(np.get_include(), "numpy", "__multiarray_api.h").read_text()
        layout = (EXTENSION / "layout.h").read_text()
        for name, own, number in (("PyArray_GetNDArrayCVersion", "OF_VERSION", 0), ("PyArray_Type", "OF_ARRAY", 2),
                                  ("PyArray_New", "OF_NEW", 93)):
            self.assertRegex(text, rf"#define {name}\b[^#]*PyArray_API\[{number}\]")
            self.assertIn(f"{own} = {number}", layout)


if __name__ == "__main__":
    unittest.main()
