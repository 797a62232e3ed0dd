"""The build backend of the package: packs it, the shared library that c/build.sh made, the extension module, the guide
to rosters and the manual's page into a wheel. It needs nothing but Python, so that installing needs no network. An
extension that wasn't built yet is compiled where a C compiler and Python.h are; without one the package works, by
ctypes. Windows has none, and no manual."""
import base64
import hashlib
import io
import pathlib
import re
import shutil
import subprocess
import sys
import sysconfig
import tarfile
import tempfile
import zipfile

HERE = pathlib.Path(__file__).resolve().parent
TOP = HERE.parent
PACKAGE = TOP / "nushbaret"
BUILT = TOP.parent / "c" / "out"
# The library for each kind of machine: where it is, after the package itself, and what makes it.
LIBRARIES = {
    r"(linux|manylinux2014)[-_]x86_64": (BUILT / "libnushbaret.so", "c/build.sh"),
    r"(linux|manylinux2014)[-_]aarch64": (BUILT / "aarch64" / "libnushbaret.so", "c/build.sh --target aarch64"),
    r"win[-_]amd64": (BUILT / "windows" / "nushbaret.dll", "c/build_windows.sh"),
}
EXTENSION = "_extension.abi3.so"
NAMES = {EXTENSION, *(path.name for path, _ in LIBRARIES.values())}
SOURCES = sorted((TOP / "extension").glob("*.[ch]"))
# The compilers that make the extension for each kind of machine; those of a machine of the same kind alone need no name
# of their own.
COMPILERS = {r"(linux|manylinux2014)[-_]x86_64": "cc", r"(linux|manylinux2014)[-_]aarch64": "aarch64-linux-gnu-gcc"}
FLAGS = ("-std=c99", "-O3", "-ffp-contract=off", "-fno-trapping-math", "-Wall", "-Wextra",
         "-Wno-missing-field-initializers", "-fPIC", "-shared", "-fvisibility=hidden", "-Wl,-z,now", "-Wl,-z,relro",
         "-Wl,--build-id=none", "-s")
NO_EXTENSION = "it needs a C compiler and Python.h (Debian has it in python3-dev)"
DAY = (2020, 1, 1, 0, 0, 0)
# What the wheel's tag says of the machine; release/make.sh sets it to what its library is looked at for.
PLATFORM = sysconfig.get_platform()
# The page that describes the package, those of rosters and of their rules, and the folder of examples: where the
# archive of sources has each, and in a checkout.
DESCRIPTIONS = (TOP / "PYTHON.md", TOP.parent / "docs" / "PYTHON.md")
GUIDES = (TOP / "ROSTERS.md", TOP.parent / "docs" / "ROSTERS.md")
RULES = (TOP / "RULES.md", TOP.parent / "docs" / "RULES.md")
EXAMPLES = (TOP / "examples", TOP.parent / "examples")


def _text(word):
    """A word of pyproject.toml, where each stands once."""
    return re.search(rf'^{word} = "(.*)"$', _project(), re.M)[1]


def _listed(word):
    """The texts of a list of pyproject.toml."""
    return re.findall(r'"(.*)"', re.search(rf"^{word} = \[\n(.*?)^\]", _project(), re.M | re.S)[1])


def _project():
    return (TOP / "pyproject.toml").read_text(encoding="utf-8")


VERSION = _text("version")
INFO = f"nushbaret-{VERSION}.dist-info"
DATA = f"nushbaret-{VERSION}.data/data"


def _library():
    """The library for the machine that the wheel is for."""
    found = next((library for kind, library in LIBRARIES.items() if re.fullmatch(kind, PLATFORM)), None)
    if found is None:
        raise SystemExit("nushbaret runs on Linux for x86-64 and for 64-bit ARM, and on Windows for x86-64, and this "
                         f"is {PLATFORM}: " "use a Linux container there")
    path, script = found
    for file in (PACKAGE / path.name, path):
        if file.exists():
            return file
    raise SystemExit(f"{path.name} isn't there: run {script} at the top of the checkout first, and then install again")


def compile_extension(compiler, path):
    """Compiles the extension to a file; false where there is no compiler or no Python.h."""
    headers = pathlib.Path(sysconfig.get_path("include"))
    if not shutil.which(compiler) or not (headers / "Python.h").exists():
        return False
    with tempfile.TemporaryDirectory() as held:
        _configuration(headers, pathlib.Path(held))
        words = [compiler, *FLAGS, f"-I{headers}", f"-I{held}", "-o", str(path),
                 *(str(file.relative_to(TOP)) for file in SOURCES if file.suffix == ".c")]
        return subprocess.run(words, cwd=TOP).returncode == 0


def _configuration(headers, held):
    """Debian's pyconfig.h leads to that of the machine, which isn't there for another machine: as that for ARM serves
    the one for x86-64."""
    own = headers.parent / "x86_64-linux-gnu" / headers.name / "pyconfig.h"
    if own.exists():
        there = held / "aarch64-linux-gnu" / headers.name
        there.mkdir(parents=True)
        shutil.copy(own, there)


def _extension():
    """The extension for the machine that the wheel is for, as bytes: what was built, unless its source is newer, or
    else compiled here; None where there is none."""
    library = next(path for kind, (path, _) in LIBRARIES.items() if re.fullmatch(kind, PLATFORM))
    newest = max(file.stat().st_mtime for file in SOURCES)
    for file in (PACKAGE / EXTENSION, library.with_name(EXTENSION)):
        if library.suffix == ".so" and file.exists() and file.stat().st_mtime >= newest:
            return file.read_bytes()
    compiler = next((own for kind, own in COMPILERS.items() if re.fullmatch(kind, PLATFORM)), None)
    if compiler is None:
        return None
    with tempfile.TemporaryDirectory() as held:
        path = pathlib.Path(held) / EXTENSION
        own = "cc" if PLATFORM == sysconfig.get_platform() else compiler
        return path.read_bytes() if compile_extension(own, path) else None


def _tag():
    platform = re.sub(r"[^a-zA-Z0-9]", "_", PLATFORM)
    return f"py3-none-{platform}"


def _metadata():
    fields = [("Metadata-Version", "2.1"), ("Name", "nushbaret"), ("Version", VERSION),
              ("Summary", _text("description")), ("Keywords", ",".join(_listed("keywords"))),
              ("License", "MIT OR Apache-2.0"), ("Requires-Python", _text("requires-python")),
              *(("Classifier", text) for text in _listed("classifiers")), *_extras("xlsx", "rules", "dask", "all"),
              ("Description-Content-Type", "text/markdown")]
    return "".join(f"{name}: {text}\n" for name, text in fields) + "\n" + _description()


def _extras(*names):
    """What optional parts of the package need."""
    for name in names:
        yield "Provides-Extra", name
        yield from (("Requires-Dist", f"{text}; extra == '{name}'") for text in _listed(name))


def _description():
    """The page that describes the package. Its links lead to pages that a reader of the metadata doesn't have, so their
    texts alone stay."""
    for file in DESCRIPTIONS:
        if file.exists():
            return re.sub(r"\[([^][]+)\]\((?!https?:)[^()]*\)", r"\1", file.read_text(encoding="utf-8"))
    return _text("description") + "\n"


def _modules_here():
    """Lets modules next to this one be imported."""
    sys.path[:0] = [str(folder) for folder in (HERE, TOP) if str(folder) not in sys.path]


def _examples():
    """The examples of rosters."""
    return next((sorted(folder.glob("*.csv")) for folder in EXAMPLES if folder.exists()), [])


def _guide():
    """The guide to rosters and its examples, by their names in the package."""
    _modules_here()
    import nushbaret_guide

    pages = [next((file for file in files if file.exists()), None) for files in (GUIDES, RULES)]
    if None in pages:
        return {}
    texts = [page.read_text(encoding="utf-8") for page in pages]
    files = nushbaret_guide.guide_files(*texts, {file.name: file.read_bytes() for file in _examples()})
    return {f"nushbaret/guide/{name}": content for name, content in files.items()}


def _manual():
    """The manual's page of the command, by its name in the folder of a prefix."""
    _modules_here()
    import nushbaret_manual

    return {"share/man/man1/nushbaret.1": nushbaret_manual.command_page().encode()}


def _wheel_text():
    return f"Wheel-Version: 1.0\nGenerator: nushbaret_build\nRoot-Is-Purelib: false\nTag: {_tag()}\n"


def _info():
    return {f"{INFO}/METADATA": _metadata().encode(), f"{INFO}/WHEEL": _wheel_text().encode(),
            f"{INFO}/entry_points.txt": b"[console_scripts]\nnushbaret = nushbaret.__main__:main\n"}


def _sources():
    """The files of the package, without the library and what Python keeps of its own."""
    return sorted(file for file in PACKAGE.rglob("*") if file.is_file() and "__pycache__" not in file.parts
                  and file.name not in NAMES)


def _licenses():
    return sorted(TOP.glob("LICENSE-*")) or sorted(TOP.parent.glob("LICENSE-*"))


def _record(name, held):
    digest = base64.urlsafe_b64encode(hashlib.sha256(held).digest()).rstrip(b"=").decode()
    return f"{name},sha256={digest},{len(held)}\n"


def _write_wheel(folder, held):
    """A wheel of these files, the same bytes for the same files."""
    name = f"nushbaret-{VERSION}-{_tag()}.whl"
    record = "".join(_record(*one) for one in held.items()) + f"{INFO}/RECORD,,\n"
    with zipfile.ZipFile(pathlib.Path(folder) / name, "w", zipfile.ZIP_DEFLATED) as wheel:
        for inside, text in [*held.items(), (f"{INFO}/RECORD", record.encode())]:
            entry = zipfile.ZipInfo(inside, DAY)
            entry.external_attr = 0o644 << 16
            entry.compress_type = zipfile.ZIP_DEFLATED
            wheel.writestr(entry, text)
    return name


def get_requires_for_build_wheel(config_settings=None):
    return []


get_requires_for_build_sdist = get_requires_for_build_editable = get_requires_for_build_wheel


def prepare_metadata_for_build_wheel(metadata_directory, config_settings=None):
    for name, text in _info().items():
        path = pathlib.Path(metadata_directory) / name
        path.parent.mkdir(parents=True, exist_ok=True)
        path.write_bytes(text)
    return INFO


prepare_metadata_for_build_editable = prepare_metadata_for_build_wheel


def build_wheel(wheel_directory, config_settings=None, metadata_directory=None):
    held = {f"nushbaret/{file.relative_to(PACKAGE).as_posix()}": file.read_bytes() for file in _sources()}
    library = _library()
    held[f"nushbaret/{library.name}"] = library.read_bytes()
    extension = _extension()
    if extension is not None:
        held[f"nushbaret/{EXTENSION}"] = extension
    held.update(_guide())
    if library.suffix == ".so":
        held.update({f"{DATA}/{name}": text for name, text in _manual().items()})
    licenses = {f"{INFO}/licenses/{file.name}": file.read_bytes() for file in _licenses()}
    return _write_wheel(wheel_directory, {**held, **_info(), **licenses})


def build_editable(wheel_directory, config_settings=None, metadata_directory=None):
    """A wheel that points at this folder; the library is then found in the checkout."""
    _library()
    return _write_wheel(wheel_directory, {"nushbaret.pth": f"{TOP}\n".encode(), **_info()})


def build_sdist(sdist_directory, config_settings=None):
    """The sources with the library next to them, so that a wheel can be made of them alone."""
    front = f"nushbaret-{VERSION}"
    files = {"pyproject.toml": TOP / "pyproject.toml"}
    files.update({f"building/{file.name}": file for file in sorted(HERE.glob("*.py"))})
    files.update({f"extension/{file.name}": file for file in SOURCES})
    files.update({file.name: file for file in (*DESCRIPTIONS, *GUIDES, *RULES) if file.exists()})
    files.update({f"examples/{file.name}": file for file in _examples()})
    files.update({file.name: file for file in _licenses()})
    files.update({f"nushbaret/{file.relative_to(PACKAGE).as_posix()}": file for file in _sources()})
    files[f"nushbaret/{_library().name}"] = _library()
    with tarfile.open(pathlib.Path(sdist_directory) / f"{front}.tar.gz", "w:gz", format=tarfile.PAX_FORMAT,
                      dereference=True) as archive:
        for name, file in files.items():
            archive.add(file, f"{front}/{name}", recursive=False)
        entry = tarfile.TarInfo(f"{front}/PKG-INFO")
        entry.size = len(_metadata().encode())
        archive.addfile(entry, io.BytesIO(_metadata().encode()))
    return f"{front}.tar.gz"
