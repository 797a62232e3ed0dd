#!/usr/bin/env python3
"""Packs the files of a folder into an archive, the same bytes for the same files: zip.py FOLDER FILE.zip"""
import pathlib
import sys
import zipfile

DAY = (2020, 1, 1, 0, 0, 0)


def pack(folder: pathlib.Path, place: str) -> None:
    """Writes the archive, with the names as they are in the folder."""
    files = sorted((file.relative_to(folder).as_posix(), file) for file in folder.rglob("*") if file.is_file())
    with zipfile.ZipFile(place, "w") as archive:
        for name, file in files:
            entry = zipfile.ZipInfo(name, DAY)
            entry.external_attr = 0o644 << 16
            archive.writestr(entry, file.read_bytes(), zipfile.ZIP_DEFLATED, 9)


if __name__ == "__main__":
    pack(pathlib.Path(sys.argv[1]), sys.argv[2])
