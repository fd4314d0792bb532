#!/usr/bin/env python3
"""Looks up what the rows of docs/promises.md name: calls, clauses and definitions, and edits, tests and cases of wrong bodies.

A definition has to stand in the file behind it, a call or clause in its crate's code. The status is 1 where one is missing.
"""
import pathlib
import re
import sys

CRATES = pathlib.Path(__file__).resolve().parent.parent / "crates"
SAID = r"\b(?:fn|struct|trait|enum|type|ensures\*?|ghost|law)\s+%s\b"


def text_of(pattern):
    """What the files of a pattern hold."""
    return "\n".join(path.read_text(encoding="utf-8") for path in sorted(CRATES.glob(pattern)))


def missing_calls(cell, crate):
    """The names of a cell that aren't said in the code of a crate; one may name its crate itself."""
    for name in re.findall(r"`([\w:]+)`", cell):
        parts = name.split("::")
        home = parts.pop(0) if parts[0].startswith("gufi_") else crate
        code = text_of(home + "/src/**/*.rt")
        yield from ("%s: no %s" % (home, name) for part in parts if not re.search(SAID % part, code))


def missing_definitions(cell, crate):
    """The definitions of a cell that don't stand in the file behind them, which is of the row's crate where none is named."""
    for names, home, file in re.findall(r"((?:`[^`]+`(?:, )?)*) ?\((?:(\w+)/)?(\w+)\)", cell):
        home = "gufi_" + home if home else crate
        text = text_of("%s/specs/%s.antt" % (home, file))
        wanted = re.findall(r"`([\w-]+)`", names) if text else ["file"]
        yield from ("%s: no %s in %s" % (home, name, file) for name in wanted if not re.search(r"(?<![\w-])%s(?![\w-])" % name, text))


def missing_trials(cell):
    """The edits, tests and cases of a cell that are none."""
    for kind, names in re.findall(r"""(edit|test|case)s? ((?:[`"][^`"]+[`"](?:, )?)+)""", cell):
        for name in re.findall(r"""[`"]([^`"]+)[`"]""", names):
            edits = list(CRATES.glob("*/must-fail/%s.edit" % name))
            told = re.search(SAID % name, text_of("*/src/*tests.rt")) if kind == "test" else "# %s\n" % name in text_of("gufi_cases/data/*")
            if not (edits if kind == "edit" else told):
                yield "no %s %s" % (kind, name)


if __name__ == "__main__":
    lines = (CRATES.parent / "docs" / "promises.md").read_text(encoding="utf-8").splitlines()
    crate, missing = "gufi_top", []
    for row in ([cell.strip() for cell in line.strip()[1:-1].split("|")] for line in lines if line.startswith("| ")):
        heading = re.match(r"\*\*(gufi_\w+)\*\*", row[0])
        crate = heading.group(1) if heading else crate
        missing += missing_calls(row[1], crate) if len(row) > 2 else missing_trials(row[-1])
        missing += missing_definitions(row[-1], crate)
    print("\n".join(missing + ["%d names are missing" % len(missing)]))
    sys.exit(1 if missing else 0)
