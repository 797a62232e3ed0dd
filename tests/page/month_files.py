#!/usr/bin/env python3
"""A planner's month for the page in browsers, and what the command says of it: tests/page/month_files.py FOLDER

Writes the roster, places, tasks and days as CSV and as sheets of month.xlsx, the tasks where a nurse is sick, and
wanted.json with the first lines of the command and how much changes from its plan.
"""
import csv
import json
import os
import random
import sys
import zipfile
from html import escape
from typing import List

sys.path.insert(0, os.path.dirname(os.path.abspath(__file__)))
from read_rosters import months_of  # noqa: E402

SHEETS = {"text": "roster", "places": "places", "tasks": "tasks", "groups": "groups"}
MAIN = "http://schemas.openxmlformats.org/spreadsheetml/2006/main"
LINK = "http://schemas.openxmlformats.org/officeDocument/2006/relationships"
LINKS = '<Relationships xmlns="http://schemas.openxmlformats.org/package/2006/relationships">'


def sheet_of(rows: List[List[str]]) -> str:
    """A sheet with texts in its cells, and numbers where they are numbers."""
    cells = ("".join(f"<c><v>{cell}</v></c>" if cell.isdigit() else
                     f'<c t="inlineStr"><is><t>{escape(cell)}</t></is></c>' for cell in row) for row in rows)
    body = "".join(f"<row>{row}</row>" for row in cells)
    return f'<worksheet xmlns="{MAIN}"><sheetData>{body}</sheetData></worksheet>'


def write_workbook(path: str, sheets: "dict[str, List[List[str]]]") -> None:
    names = list(sheets)
    listed = "".join(f'<sheet name="{name}" sheetId="{number}" r:id="r{number}"/>'
                     for number, name in enumerate(names, 1))
    links = "".join(f'<Relationship Id="r{number}" Type="{LINK}/worksheet" Target="worksheets/sheet{number}.xml"/>'
                    for number in range(1, len(names) + 1))
    with zipfile.ZipFile(path, "w", zipfile.ZIP_DEFLATED) as archive:
        archive.writestr("_rels/.rels", f'{LINKS}<Relationship Id="r1" Type="{LINK}/officeDocument" '
                         'Target="xl/workbook.xml"/></Relationships>')
        archive.writestr("xl/workbook.xml", f'<workbook xmlns="{MAIN}" xmlns:r="{LINK}"><sheets>{listed}</sheets>'
                         "</workbook>")
        archive.writestr("xl/_rels/workbook.xml.rels", LINKS + links + "</Relationships>")
        for number, name in enumerate(names, 1):
            archive.writestr(f"xl/worksheets/sheet{number}.xml", sheet_of(sheets[name]))


def main(folder: str) -> None:
    case, sick = months_of(random.Random(84), folder, 1)
    for name, file in SHEETS.items():
        with open(os.path.join(folder, f"month_{file}.csv"), "w", encoding="utf-8") as out:
            out.write(case[name])
    for name, text in (("sick_tasks", sick["tasks"]), ("command_plan", sick["plan"])):
        with open(os.path.join(folder, f"{name}.csv"), "w", encoding="utf-8") as out:
            out.write(text)
    write_workbook(os.path.join(folder, "month.xlsx"),
                   {file: list(csv.reader(case[name].splitlines())) for name, file in SHEETS.items()})
    wanted = {"cost": case["wanted"]["said"][0], "sick": sick["wanted"]["said"], "changes": sick["wanted"]["changes"]}
    with open(os.path.join(folder, "wanted.json"), "w", encoding="utf-8") as out:
        json.dump(wanted, out)


if __name__ == "__main__":
    main(sys.argv[1])
