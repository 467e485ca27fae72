#!/usr/bin/env python3
"""Puts the tables (CSV) into the page, each between two marks. Usage: page.py [--check [FOLDER]], which changes nothing and tells whether the
page has the tables of that folder, or of its own."""

import csv
import pathlib
import re
import sys

HERE = pathlib.Path(__file__).resolve().parent
PAGE = HERE / "README.md"
# Of a table of means: what its rows are, and what its columns.
SHOWN = {"table5": (["application"], ("command", "copies", "processors"))}


def number(value):
    """A number as a reader wants it: three digits that count."""
    return f"{float(value):.2f}"


def pivoted(rows, keys, across):
    """A table with a row for each value of the keys, and a column for each value of the other fields."""
    names, lines = [], {}
    for row in rows:
        name = ", ".join(f"{row[it]} {it}" if it in ("copies", "processors") else row[it] for it in across)
        names += [name] * (name not in names)
        lines.setdefault(tuple(row[it] for it in keys), {})[name] = number(row["mean"])
    return [[*keys, *names], *([*key, *(cells.get(it, "") for it in names)] for key, cells in lines.items())]


def table(name, folder):
    """The table as lines of the page."""
    with open(folder / f"{name}.csv", encoding="utf-8") as file:
        rows = list(csv.DictReader(file))
    cells = pivoted(rows, *SHOWN[name]) if name in SHOWN else [list(rows[0]), *(list(it.values()) for it in rows)]
    head, *body = ([it.replace("_", " ") for it in cells[0]], *cells[1:])
    return "\n".join(f"| {' | '.join(it)} |" for it in (head, ["---"] * len(head), *body))


def main():
    folder = pathlib.Path(sys.argv[2]) if len(sys.argv) > 2 else HERE
    page = PAGE.read_text(encoding="utf-8")
    new = re.sub(r"(<!-- table: (\w+) -->\n).*?(<!-- end -->)", lambda it: f"{it[1]}\n{table(it[2], folder)}\n\n{it[3]}", page, flags=re.S)
    if sys.argv[1:2] == ["--check"]:
        sys.exit("the page has other tables" if new != page else 0)
    PAGE.write_text(new, encoding="utf-8")


if __name__ == "__main__":
    main()
