#!/usr/bin/env bash
# Tests the Python package and its command, with python3 alone; the parts for NumPy and SciPy run where these import. Needs
# c/out/libnushbaret.so (c/build.sh). PYTHON=.. names another interpreter. Where the extension is, some run a second time without it.
# The last line says what ran.
set -euo pipefail
cd "$(dirname "$0")/.."
python=${PYTHON:-python3}
export PYTHONPATH=$PWD/python PYTHONDONTWRITEBYTECODE=1
# Ctrl-C as usual, which what runs in the background of a script ignores.
env --default-signal=INT "$python" -m unittest discover -s tests/python -p 'test_*.py'
if "$python" tests/python/without_extension.py --is-here; then
    env --default-signal=INT "$python" tests/python/without_extension.py
fi
"$python" tests/python/which_ran.py
