"""The package as it is built and installed: without a network, with the library inside."""
import base64
import csv
import email
import hashlib
import importlib.util
import os
import pathlib
import re
import shutil
import subprocess
import sys
import sysconfig
import tempfile
import unittest
import zipfile

import nushbaret

PYTHON = pathlib.Path(__file__).resolve().parent.parent.parent / "python"
SOLVES = ("import sys; sys.path.insert(0, sys.argv[1]); import nushbaret; print(nushbaret.__file__, "
          "nushbaret.solve([[1, 2], [3, 5]]).cost)")


def backend():
    spec = importlib.util.spec_from_file_location("nushbaret_build", PYTHON / "building" / "nushbaret_build.py")
    module = importlib.util.module_from_spec(spec)
    spec.loader.exec_module(module)
    return module


class Package(unittest.TestCase):
    def setUp(self):
        held = tempfile.TemporaryDirectory()
        self.addCleanup(held.cleanup)
        self.folder = pathlib.Path(held.name)

    def solves(self, folder):
        """Whether the package of a folder solves, away from the checkout."""
        ran = subprocess.run([sys.executable, "-I", "-c", SOLVES, folder], capture_output=True, text=True, check=True,
                             cwd=self.folder)
        self.assertEqual(ran.stdout.split(), [os.path.join(folder, "nushbaret", "__init__.py"), "5"])

    def test_wheel(self):
        build = backend()
        name = build.build_wheel(self.folder)
        self.assertEqual((self.folder / name).read_bytes(), (self.folder / build.build_wheel(self.folder)).read_bytes())
        with zipfile.ZipFile(self.folder / name) as wheel:
            wheel.extractall(self.folder / "out")
            names = set(wheel.namelist())
            rows = list(csv.reader(wheel.read(f"{build.INFO}/RECORD").decode().splitlines()))
            for file, digest, size in rows[:-1]:
                text = wheel.read(file)
                wanted = base64.urlsafe_b64encode(hashlib.sha256(text).digest()).rstrip(b"=").decode()
                self.assertEqual((digest, int(size)), (f"sha256={wanted}", len(text)))
        self.assertEqual({row[0] for row in rows}, names)
        library = next(path for kind, (path, _) in build.LIBRARIES.items() if re.fullmatch(kind, build.PLATFORM))
        self.assertLessEqual({"nushbaret/py.typed", "nushbaret/__main__.py", f"nushbaret/{library.name}",
                              f"{build.DATA}/share/man/man1/nushbaret.1", "nushbaret/guide/rosters.html",
                              "nushbaret/guide/examples/week.csv", "nushbaret/guide/examples/month_rules.csv"}, names)
        self.solves(str(self.folder / "out"))
        self.describes((self.folder / "out" / build.INFO / "METADATA").read_text(encoding="utf-8"))

    def describes(self, metadata):
        """Whether the metadata have what an index shows, and a description without links that lead nowhere."""
        ran = email.message_from_string(metadata)
        self.assertIn("linear assignment problem", ran["Keywords"].split(","))
        self.assertLessEqual({"Operating System :: POSIX :: Linux", "Operating System :: Microsoft :: Windows"},
                             set(ran.get_all("Classifier")))
        self.assertEqual(ran["Description-Content-Type"], "text/markdown")
        self.assertEqual((ran.get_all("Provides-Extra"), ran.get_all("Requires-Dist")),
                         (["xlsx", "rules", "dask", "all"],
                          ["openpyxl; extra == 'xlsx'", "scipy>=1.9; extra == 'rules'",
                           "dask[array,dataframe,distributed]; extra == 'dask'", "numpy; extra == 'dask'",
                           "openpyxl; extra == 'all'", "scipy>=1.9; extra == 'all'",
                           "dask[array,dataframe,distributed]; extra == 'all'", "numpy; extra == 'all'"]))
        self.assertIn("For rosters with names see ROSTERS.md.", ran.get_payload())
        self.assertNotRegex(ran.get_payload(), r"\]\((?!https?:)")

    def test_sources(self):
        build = backend()
        name = build.build_sdist(self.folder)
        subprocess.run(["tar", "-xzf", name], cwd=self.folder, check=True)
        again = subprocess.run([sys.executable, "-c",
                                "import nushbaret_build; print(nushbaret_build.build_wheel('../..'))"],
                               cwd=self.folder / f"nushbaret-{build.VERSION}" / "building", capture_output=True,
                               text=True, check=True)
        own, other = self.held(again.stdout.strip()), self.held(build.build_wheel(self.folder))
        self.assertEqual(own, other)
        subprocess.run([sys.executable, "-m", "zipfile", "-e", again.stdout.strip(), "again"], cwd=self.folder,
                       check=True)
        self.solves(str(self.folder / "again"))

    def held(self, name):
        """What a wheel holds, without the extension, which each compiler makes in its own way, and what sums it up."""
        with zipfile.ZipFile(self.folder / name) as wheel:
            return {file: wheel.read(file) for file in wheel.namelist()
                    if not file.endswith(("/_extension.abi3.so", "/RECORD"))}

    def test_extension(self):
        """It is packed if it was built, or else if it can be compiled, and never for Windows; without it the package is
        whole."""
        build = backend()
        shutil.copytree(build.PACKAGE, self.folder / "nushbaret",
                        ignore=shutil.ignore_patterns("__pycache__", *build.NAMES))
        build.PACKAGE = self.folder / "nushbaret"
        build.LIBRARIES = {kind: (build.PACKAGE / place.name, script)
                           for kind, (place, script) in build.LIBRARIES.items()}
        for name in "libnushbaret.so", "nushbaret.dll":
            (build.PACKAGE / name).write_bytes(b"a library")
        can = shutil.which("cc") and (pathlib.Path(sysconfig.get_path("include")) / "Python.h").exists()
        for build.PLATFORM, there in ((sysconfig.get_platform(), bool(can)), ("win-amd64", False)):
            with zipfile.ZipFile(self.folder / build.build_wheel(self.folder)) as wheel:
                self.assertEqual(f"nushbaret/{build.EXTENSION}" in wheel.namelist(), there)
        (build.PACKAGE / build.EXTENSION).write_bytes(b"built")
        build.PLATFORM = "manylinux2014_aarch64"
        with zipfile.ZipFile(self.folder / build.build_wheel(self.folder)) as wheel:
            self.assertEqual(wheel.read(f"nushbaret/{build.EXTENSION}"), b"built")
        self.assertFalse(build.compile_extension("no-compiler", self.folder / "none"))

    def test_no_library_to_pack(self):
        build = backend()
        # The checkout's own may have one.
        build.PACKAGE = self.folder
        build.LIBRARIES = {kind: (self.folder / place.name, script)
                           for kind, (place, script) in build.LIBRARIES.items()}
        for build.PLATFORM, words in (("linux-x86_64", "libnushbaret.so isn't there: run c/build.sh at"),
                                      ("linux-aarch64", "libnushbaret.so isn't there: run c/build.sh --target aarch64 "
                                       "at"), ("win-amd64", "nushbaret.dll isn't there: run c/build_windows.sh at")):
            with self.assertRaisesRegex(SystemExit, words):
                build.build_wheel(self.folder)
        self.assertEqual(list(self.folder.iterdir()), [])

    def test_library_in_the_package(self):
        """A library that was copied into the package is packed, and no file of sources."""
        build = backend()
        shutil.copytree(build.PACKAGE, self.folder / "nushbaret",
                        ignore=shutil.ignore_patterns("__pycache__", *build.NAMES))
        sources = sorted(file.name for file in (self.folder / "nushbaret").rglob("*") if file.is_file())
        build.PACKAGE = self.folder / "nushbaret"
        for build.PLATFORM, name in (("linux-x86_64", "libnushbaret.so"), ("win-amd64", "nushbaret.dll")):
            (build.PACKAGE / name).write_bytes(b"a library")
            with zipfile.ZipFile(self.folder / build.build_wheel(self.folder)) as wheel:
                self.assertEqual(wheel.read(f"nushbaret/{name}"), b"a library")
                # Windows has no manual.
                self.assertEqual(any(".data/" in file for file in wheel.namelist()), name.endswith(".so"))
                # The other library isn't packed.
                self.assertEqual([file for file in wheel.namelist()
                                  if file.endswith((".so", ".dll")) and not file.endswith(build.EXTENSION)],
                                 [f"nushbaret/{name}"])
            self.assertEqual(sorted(file.name for file in build._sources()), sources)

    def test_other_machines(self):
        build = backend()
        for build.PLATFORM in ("win-arm64", "win32", "macosx-14.0-arm64", "linux-i686", "linux-armv7l"):
            with self.assertRaisesRegex(SystemExit, f"on Windows for x86-64, and this is {build.PLATFORM}: "):
                build.build_wheel(self.folder)
        self.assertEqual(list(self.folder.iterdir()), [])

    def test_one_version(self):
        self.assertEqual(backend().VERSION, nushbaret.__version__)
        self.assertEqual((PYTHON.parent / "VERSION").read_text().strip(), nushbaret.__version__)

    @unittest.skipUnless(importlib.util.find_spec("pip"), "pip isn't there")
    def test_pip_without_a_network(self):
        words = [sys.executable, "-m", "pip", "--disable-pip-version-check", "install", "--no-index", "--quiet",
                 "--target", str(self.folder / "out"), str(PYTHON)]
        ran = subprocess.run(words, capture_output=True, text=True, cwd=self.folder)
        version = subprocess.run([sys.executable, "-m", "pip", "--version"], capture_output=True, text=True).stdout
        if int(re.match(r"pip (\d+)", version)[1]) < 22:
            self.skipTest("this pip copies a folder before it builds it, so that the library of the checkout is out of "
                          "sight")
        self.assertEqual(ran.returncode, 0, ran.stderr)
        self.solves(str(self.folder / "out"))


@unittest.skipUnless(shutil.which("git") and (PYTHON.parent / ".git").exists(), "this is no checkout of git's")
class Bump(unittest.TestCase):
    """One script writes a new version, in a copy of the checkout."""

    def setUp(self):
        held = tempfile.TemporaryDirectory()
        self.addCleanup(held.cleanup)
        self.top = pathlib.Path(held.name)
        names = subprocess.run(["git", "ls-files"], cwd=PYTHON.parent, capture_output=True, text=True,
                               check=True).stdout.splitlines()
        for name in names:
            if (PYTHON.parent / name).is_file() and (not name.startswith("release/") or name.endswith(".sh")):
                (self.top / name).parent.mkdir(parents=True, exist_ok=True)
                shutil.copy(PYTHON.parent / name, self.top / name)
        for words in (["init", "-q"], ["add", "-A"]):
            subprocess.run(["git", *words], cwd=self.top, check=True)

    def bump(self, *words):
        ran = subprocess.run([str(self.top / "release/bump.sh"), *words], capture_output=True, text=True)
        return ran.returncode, ran.stdout + ran.stderr

    def texts(self):
        return {file: file.read_bytes() for file in self.top.rglob("*") if file.is_file() and ".git" not in file.parts}

    def test_longer_version(self):
        old = nushbaret.__version__
        first, second, _ = old.split(".")
        new, before = f"{first}.{int(second) + 10}.0", self.texts()
        self.assertEqual(self.bump(new), (0, f"{old} is now {new}; CHANGELOG.md, the builds and release/make.sh "
                                          "follow\n"))
        changed = {file.relative_to(self.top).as_posix(): held for file, held in self.texts().items()
                   if held != before[file]}
        self.assertEqual(sorted(changed), ["VERSION", "c/nushbaret.h", "crates/program_tests/src/command.rt",
                                           "crates/release_version/must-fail/another_version.edit",
                                           "crates/release_version/src/lib.rt", "docs/PROGRAM.md",
                                           "python/nushbaret/lap/library.py", "python/pyproject.toml"])
        for name, held in changed.items():
            self.assertEqual(held.decode(), before[self.top / name].decode().replace(old, new))
        self.assertEqual(self.bump(old)[0], 0)
        self.assertEqual(self.texts(), before)

    def test_refusals(self):
        old, before = nushbaret.__version__, self.texts()
        for words, why in (((), f"it takes one word, the new version; this is {old}"),
                           ((old,), f"this is {old} already"), (("3.1",), "'3.1' isn't a version of three numbers, as "
                                                                "1.20.3"), (("3.01.0",), "'3.01.0' isn't a version")):
            status, said = self.bump(*words)
            self.assertEqual((status, said[:len(why) + 17]), (1, f"release/bump.sh: {why}"))
        self.assertEqual(self.texts(), before)
        for name, text in (("README.md", f"Of {old}.\n"), ("docs/PROGRAM.md", "No version.\n")):
            (self.top / name).write_text(text)
            planted = self.texts()
            self.assertIn(f"{old} doesn't stand where it should", self.bump("9.9.9")[1])
            self.assertEqual(self.texts(), planted)
            (self.top / name).write_bytes(before[self.top / name])


if __name__ == "__main__":
    unittest.main()
