"""That the documents name what stands in the repository."""

import os
import re

from harness import Failure

TOP = os.path.join(os.path.dirname(os.path.abspath(__file__)), "..")
COLUMNS = ["Rule", "Definition", "Code", "Clause", "Test", "Wrong body"]


def each_row_of_the_rules_names_what_stands(_world):
    rows = _rows(_read("docs/RULES.md"))
    if not rows:
        raise Failure("docs/RULES.md has no rows")
    for row in rows:
        for column, cell in zip(COLUMNS[1:], row[1:]):
            for name in re.findall(r"`([^`]+)`", cell):
                if not _stands(column, name):
                    raise Failure(f"{row[0]}: there is no {column.lower()} {name}")


def each_link_of_the_documents_leads_somewhere(_world):
    for document in _documents():
        for target in re.findall(r"\]\(([^)#:]+)\)", _read(document)):
            path = os.path.join(TOP, os.path.dirname(document), target)
            if not os.path.exists(path):
                raise Failure(f"{document} names {target}, which isn't there")


# The cells of each row of each table with these columns.
def _rows(text):
    rows = []
    within = False
    for line in text.splitlines():
        cells = [cell.strip() for cell in re.split(r"(?<!\\)\|", line.strip())[1:-1]]
        if cells == COLUMNS:
            within = True
        elif not cells:
            within = False
        elif within and not set(cells[0]) <= set("-:"):
            if len(cells) != len(COLUMNS):
                raise Failure(f"a row of docs/RULES.md has {len(cells)} cells: {line}")
            rows.append(cells)
    return rows


# Whether a crate, or a script of the tests, has what is called `crate::name`.
def _stands(column, name):
    crate, _, rest = name.partition("::")
    if crate == "tests":
        return _is_found([os.path.join(TOP, "tests")], ".py", rf"^def {re.escape(rest)}\(")
    folder = os.path.join(TOP, "crates", crate)
    if not os.path.isdir(folder) or not rest:
        return False
    if column == "Wrong body":
        return os.path.isfile(os.path.join(folder, "must-fail", rest + ".edit"))
    last = re.escape(rest.split("::")[-1])
    if column == "Definition":
        pattern = rf"^(?:(?:pub|abbrev|unfoldable|record|data)\s+)+{last}\s"
        return _is_found([os.path.join(folder, "specs")], ".antt", pattern)
    if column == "Clause":
        return _is_found([os.path.join(folder, "src")], ".rt", rf"\bensures\*? {last} \{{")
    pattern = rf"\b(?:fn|struct|enum|trait) {last}\b"
    if column == "Test":
        # A case of a table has its name behind two equal signs.
        pattern += rf"|^ +== {last}(?: from \w+)?$"
    return _is_found([os.path.join(folder, "src")], ".rt", pattern)


def _is_found(folders, ending, pattern):
    for top in folders:
        for folder, _, names in os.walk(top):
            for name in names:
                if name.endswith(ending) and re.search(
                    pattern, _read(os.path.join(folder, name)), re.MULTILINE
                ):
                    return True
    return False


def _documents():
    return ["README.md"] + [
        os.path.join("docs", name)
        for name in sorted(os.listdir(os.path.join(TOP, "docs")))
        if name.endswith(".md")
    ]


def _read(path):
    with open(os.path.join(TOP, path), encoding="utf-8") as file:
        return file.read()
