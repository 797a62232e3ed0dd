"""Says which parts of the tests could run here."""
import importlib.util
import platform
import shutil

from ways import extension

NAMES, PROGRAMS = ("numpy", "scipy", "pandas", "openpyxl"), ("chromium", "pdftotext")
parts = [*(["the extension"] if extension() else []), *filter(importlib.util.find_spec, NAMES),
         *filter(shutil.which, PROGRAMS)]
missing = [name for name in ("the extension", *NAMES, *PROGRAMS) if name not in parts]
print(f"python package: Python {platform.python_version()}; with {', '.join(['the standard library', *parts])}"
      + (f"; without {', '.join(missing)}" if missing else ""))
