#!/usr/bin/env python3
"""Compares the header for C, the names that the built library shows, and the crates: signatures, structs, codes,
version and SONAME. Prints what differs and ends with 1 then. Needs the built library (c/build.sh): tests/c/header.py
[FOLDER], where it isn't in c/out."""
import pathlib
import re
import subprocess
import sys

TOP = pathlib.Path(__file__).resolve().parent.parent.parent
CALLS = TOP / "crates/nushbaret/src"
BASE = TOP / "crates/c_calls/src"
LISTS = BASE / "lists"
SOLVER = TOP / "crates/list_solver/src"
ROWS = TOP / "crates/c_rows/src/info.rt"
DOUBLES = BASE / "doubles"
COUNTS = TOP / "crates/c_counts/src"
PLANS = TOP / "crates/c_plans/src"
WIDE = TOP / "crates/wide_checker/src/numbers.rt"
SEARCH = TOP / "crates/count_search/src"
HEADER = re.sub(r"/\*.*?\*/", "", (TOP / "c/nushbaret.h").read_text(), flags=re.S)
NUMBERS = {"u8": "uint8_t", "u32": "uint32_t", "u64": "uint64_t", "usize": "size_t", "i32": "int32_t",
           "i64": "int64_t", "f64": "double",
           "Person": "uint32_t", "Object": "uint32_t", "Cost": "int64_t", "Price": "int64_t",
           "Record": "struct nushbaret_record", "Info": "struct nushbaret_info",
           "RowsInfo": "struct nushbaret_rows_info", "DoublesInfo": "struct nushbaret_doubles_info",
           "CountsInfo": "struct nushbaret_counts_info", "CountsRecord": "struct nushbaret_counts_record",
           "Wide": "struct nushbaret_wide_number"}
# What a code's variant is called in the header, where that isn't its own name.
CALLED = {"Verdict::Length": "ANSWER_LENGTH", "Verdict::PriceRange": "PRICE_RANGE", "HallVerdict::Range": "HALL_RANGE",
          "HallVerdict::Order": "HALL_ORDER", "HallVerdict::Missing": "HALL_MISSING",
          "HallVerdict::Extra": "HALL_EXTRA", "HallVerdict::Count": "HALL_COUNT"}
# What a parameter is called in the header, where the crate can't call it so: clauses have the word for other things.
PARAMETERS = {"progress": "record"}
BUILT = pathlib.Path(sys.argv[1]) if sys.argv[1:] else TOP / "c/out"
differ = []


def compare(what, header, crate):
    if header != crate:
        differ.append(f"{what}: the header has {header}, the crate {crate}")


def parameters(text):
    """A crate's parameters as the header writes them: a slice is an address and a count, and `Global` is nothing."""
    for name, kind in re.findall(r"(\w+): ([^,]+)", text):
        many = re.fullmatch(r"&(mut )?\[(\w+)\]", kind)
        one = re.fullmatch(r"&mut (\w+)", kind)
        if many:
            yield f"{'' if many[1] else 'const '}{NUMBERS[many[2]]} *{name}"
            yield f"size_t {name}_count"
        elif one:
            yield f"{NUMBERS[one[1]]} *{PARAMETERS.get(name, name)}"
        elif kind != "Global":
            yield f"{NUMBERS[kind]} {name}"


def crate_calls():
    for file in sorted(CALLS.glob("*.rt")):
        for name, inside, result in re.findall(r'extern "C" fn (\w+)\((.*?)\) -> (\w+)', file.read_text(), flags=re.S):
            yield name, (NUMBERS[result], list(parameters(inside)))


def header_calls():
    for result, name, inside in re.findall(r"^(\w+) (nushbaret_\w+)\((.*?)\);", HEADER, flags=re.S | re.M):
        yield name, (result, [" ".join(one.split()) for one in inside.split(",")])


def crate_codes():
    for file in [BASE / "codes.rt", LISTS / "codes.rt", LISTS / "check.rt"]:
        text = file.read_text()
        for kind, variant, number in re.findall(r"(Fault|Found|HallVerdict|Verdict)::(\w+)(?:\([^)]*\))?\)? => "
                                                r"(?:\{[^}]*?\n\s*)?(\d+)[,\n]", text):
            if variant != "Yes":
                yield CALLED.get(f"{kind}::{variant}", variant.upper()), int(number)


def row_codes():
    """The codes of rows: `Shown` and `Costs` have one."""
    called = {"NotShown": "NOT_SHOWN", "TooGreat": "TOO_GREAT", "TooDeep": "TOO_DEEP", "RowVariable": "ROW_VARIABLE",
              "CostRow": "COST_ROW", "PlanNumber": "PLAN_NUMBER"}
    for variant, number in re.findall(r"(?:Fault|Answer)::(\w+)(?:\(_\))? => (\d+),", ROWS.read_text()):
        yield "SHOWN" if variant == "Costs" else called.get(variant, variant.upper()), int(number)


def count_codes():
    """The codes of counts: those that `Yes` has are two ends."""
    called = {"RowsLack": "ROWS_LACK", "ColumnsLack": "COLUMNS_LACK", "RowCounts": "ROW_COUNTS",
              "ColumnCounts": "COLUMN_COUNTS", "CountVerdict::Length": "NUMBERS", "CountVerdict::Row": "ROW_LOOSE",
              "CountVerdict::Column": "COLUMN_LOOSE", "CountVerdict::Pair": "SLACK",
              "ShortageVerdict::Length": "MARKS"}
    for file in ["end.rt", "checking.rt"]:
        named = r"(\w+)::(\w+)(?:\([^)]*\))? => (?:\{[^}]*?\n\s*)?(\d+)[,\n]"
        for kind, variant, number in re.findall(named, (COUNTS / file).read_text()):
            if variant != "Yes" and kind != "Side":
                yield called.get(f"{kind}::{variant}", called.get(variant, variant.upper())), int(number)
    yield "SIDE", int(re.search(r"return (\d+);", (COUNTS / "checking.rt").read_text())[1])


def plan_codes():
    """The codes of answers about a plan that no other call has."""
    called = {"Other": "TIED", "Open": "UNDECIDED", "Alone": "ALONE"}
    named = r"(?:Answer|Next)::(\w+)(?:\([^)]*\))? => (?:\{[^}]*?\n\s*)?(\d+)[,\n]"
    for file in ["unique.rt", "next_plan.rt"]:
        for variant, number in re.findall(named, (PLANS / file).read_text()):
            if variant in called:
                yield called[variant], int(number)


def double_codes():
    """The codes of calls over doubles: most of them are those of other calls."""
    called = {"Verdict::Price": "PRICE_RANGE"}
    for file in [BASE / "codes.rt", DOUBLES / "codes.rt", DOUBLES / "check.rt"]:
        text = file.read_text()
        named = r"(Fault|Answer|Verdict)::(\w+)(?:\([^)]*\))? => (?:\{[^}]*?\n\s*)?(\d+)[,\n]"
        for kind, variant, number in re.findall(named, text):
            yield called.get(f"{kind}::{variant}", variant.upper()), int(number)


def fields(struct):
    body = re.search(rf"struct {struct} \{{(.*?)\}}", HEADER, flags=re.S)[1]
    return [tuple(line.split()) for line in body.split(";") if line.strip()]


def crate_fields(file, struct):
    text = file.read_text()
    body = re.search(rf"#\[repr\(C\)\]\n(?:#\[.*\]\n)*pub struct {struct} \{{(.*?)\n\}}", text, flags=re.S)[1]
    return [(NUMBERS[kind], name) for name, kind in re.findall(r"pub (\w+): (\w+)", body)]


calls, declared = dict(crate_calls()), dict(header_calls())
compare("calls", sorted(declared), sorted(calls))
for name in sorted(calls.keys() & declared.keys()):
    compare(name, declared[name], calls[name])
compare("codes", dict(sorted((name, int(code)) for name, code in re.findall(r"NUSHBARET_(?!ROWS_|COUNTS_)(\w+) = (\d+)",
                                                                            HEADER))),
        dict(sorted({**dict(crate_codes()), **dict(double_codes()), **dict(plan_codes())}.items())))
compare("codes over doubles", {name: code for name, code in crate_codes() if name in dict(double_codes())},
        {name: code for name, code in double_codes() if name in dict(crate_codes())})
compare("codes of rows", dict(sorted((name, int(code))
                                     for name, code in re.findall(r"NUSHBARET_ROWS_(\w+) = (\d+)", HEADER))),
        dict(sorted(row_codes())))
compare("codes of counts", dict(sorted((name, int(code))
                                       for name, code in re.findall(r"NUSHBARET_COUNTS_(\w+) = (\d+)", HEADER))),
        dict(sorted(count_codes())))
compare("nushbaret_counts_info", fields("nushbaret_counts_info"), crate_fields(COUNTS / "info.rt", "CountsInfo"))
compare("nushbaret_counts_record", "uint64_t state[8]",
        f"uint64_t state[{len(crate_fields(SEARCH / 'record.rt', 'Record'))}]")
compare("nushbaret_rows_info", fields("nushbaret_rows_info"), crate_fields(ROWS, "RowsInfo"))
compare("nushbaret_doubles_info", fields("nushbaret_doubles_info"), crate_fields(DOUBLES / "info.rt", "DoublesInfo"))
compare("nushbaret_record", fields("nushbaret_record"), crate_fields(SOLVER / "record.rt", "Record"))
compare("nushbaret_wide_number", fields("nushbaret_wide_number"), crate_fields(WIDE, "Wide"))
compare("nushbaret_info", fields("nushbaret_info"), crate_fields(LISTS / "info.rt", "Info"))
for crate, name, named in [("cost_lists", "MOST_PERSONS", "GREATEST_NUMBER"),
                           ("assign_core", "GREATEST_COST", "GREATEST_COST"),
                           ("cost_lists", "GREATEST_PRICE", "GREATEST_PRICE")]:
    text = (TOP / "crates" / crate / "src/numbers.rt").read_text().replace("_", "")
    value = re.search(rf"{named.replace('_', '')}: \w+ = (\d+)(?: << (\d+))?", text)
    compare(name, int(re.search(rf"NUSHBARET_{name} (?:INT64_C\()?(\d+)", HEADER)[1]),
            int(value[1]) << int(value[2] or 0))
judged = (BASE / "size.rt").read_text()
for name in ["MIN", "MAX"]:
    number = re.search(rf"#define NUSHBARET_{name} (\d+)u", HEADER)[1]
    compare(name, number, re.search(rf"(\d+) => Some\(Sense::{name.title()}\)", judged)[1])
version = (TOP / "VERSION").read_text().strip()
compare("version of the header", re.search(r'NUSHBARET_VERSION "(.*)"', HEADER)[1], version)
for file in TOP.glob("crates/*/src/*.rt"):
    for found in re.findall(r'VERSION: &str = "(.*)"', file.read_text()):
        compare(f"version of {file.parent.parent.name}", found, version)
soname = re.search(r"SONAME.*\[(.*)\]", subprocess.run(["readelf", "-d", BUILT / "libnushbaret.so"],
                                                       capture_output=True, text=True, check=True).stdout)
compare("SONAME", soname and soname[1], f"libnushbaret.so.{version.split('.')[0]}")
mapped = re.findall(r"^\s+(nushbaret_\w+);", (TOP / "c/exports.map").read_text(), flags=re.M)
compare("exports.map", sorted(mapped), sorted(calls))
shown = subprocess.run(["nm", "-D", "--defined-only", BUILT / "libnushbaret.so"], capture_output=True, text=True,
                       check=True).stdout
compare("the shared library's names", sorted(line.split()[-1] for line in shown.splitlines()), sorted(calls))
shown = subprocess.run(["nm", "-g", "--defined-only", BUILT / "libnushbaret.a"], capture_output=True, text=True,
                       check=True).stdout
compare("the archive's names", sorted(line.split()[-1] for line in shown.splitlines() if " " in line), sorted(calls))
for line in differ:
    print(line)
sys.exit(bool(differ))
