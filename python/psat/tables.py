"""Tables in and out: a problem from a CSV file, and a CSV row for each query of an answer."""
from __future__ import annotations

import argparse
import csv
import difflib
import io
import sys
from collections.abc import Iterable, Iterator, Mapping, Sequence
from pathlib import Path
from typing import TextIO

from .answers import Answer, Cell, answers_of
from .commands import NO_PROBLEM, UNREAD, tell
from .errors import AnswerError, ProblemError
from .problems import Relation

COLUMNS = ("formula", "given", "relation", "low", "high", "note")
REQUIRED = ("formula", "relation")
RELATIONS = {
    "=": "=",
    "is": "=",
    ">=": ">=",
    "≥": ">=",
    "at least": ">=",
    "<=": "<=",
    "≤": "<=",
    "at most": "<=",
    "in": "in",
    "between": "in",
    "query": "query",
}
VALUES = {"=": ("low",), ">=": ("low",), "<=": ("high",), "in": ("low", "high"), "query": ()}
OUTPUT = (
    "file",
    "verdict",
    "query",
    "status",
    "lower",
    "upper",
    "lower_decimal",
    "upper_decimal",
    "why",
)
DELIMITERS = ",;\t"
# What a program for tables takes for the begin of a formula of its own.
FORMULA_SIGNS = ("=", "+", "-", "@")

DESCRIPTION = """\
Makes a problem of a table, and a table of answers.

psat-table FILE.csv writes the problem of a table with the columns formula,
given, relation, low, high and note; given, low, high and note may be left out,
and other columns are not looked at. A relation is =, >=, <=, in or query (or is,
at least, at most, between). Row N of the table becomes line N of the problem, so
that what psat_ask says of line N is said of row N.

psat-table --csv reads what psat_ask --json wrote, from FILE or standard input,
and writes a row for each query:

    psat-table risks.csv | psat_ask --json - | psat-table --csv > answers.csv"""

EPILOG = """\
Exit status: 0 written (with --csv the greatest status of the answers),
2 invalid arguments, 3 the table is no problem or the input holds no answers,
5 reading failed."""


class RowError(ProblemError):
    """What is wrong with a row of a table, counted from 1 with the head, or None with all of it."""

    def __init__(self, row: int | None, message: str, hint: str | None = None) -> None:
        super().__init__(message if row is None else f"row {row}: {message}", hint)


class TableError(ProblemError):
    """All that is wrong with a table, each row once."""

    def __init__(self, errors: Sequence[ProblemError]) -> None:
        super().__init__("\n".join(map(str, errors)))
        self.errors = tuple(errors)


def _columns(head: Sequence[str]) -> dict[str, int]:
    """Where each known column stands."""
    names = [name.strip().lower() for name in head]
    for name in COLUMNS:
        if names.count(name) > 1:
            raise RowError(1, f"the column {name} stands twice")
    found = {name: names.index(name) for name in COLUMNS if name in names}
    others = [name for name in names if name not in COLUMNS]
    for name in COLUMNS:
        near = [] if name in found else difflib.get_close_matches(name, others, n=1, cutoff=0.75)
        if near:
            raise RowError(1, f"the column {near[0]} isn't known", f"is {name} meant?")
        if name in REQUIRED and name not in found:
            raise RowError(1, f"the column {name} is missing", f"there may be {', '.join(COLUMNS)}")
    return found


def _relation(row: Mapping[str, str]) -> Relation:
    """What a row states: its relation with the values that go with it, and no others."""
    operator = RELATIONS.get(" ".join(row["relation"].lower().split()))
    if operator is None:
        raise ProblemError(
            f"the relation {row['relation']!r} isn't known", "write =, >=, <=, in or query"
        )
    wanted = VALUES[operator]
    for name in ("low", "high"):
        if name in wanted and not row[name]:
            raise ProblemError(f"{operator} takes a number in the column {name}, which is empty")
        if name not in wanted and row[name]:
            raise ProblemError(
                f"{operator} takes no number in the column {name}, where {row[name]!r} stands"
            )
    return Relation(operator, tuple(row[name] for name in wanted))


def _line(cells: Sequence[str], columns: Mapping[str, int]) -> str:
    """The line of a problem that a row stands for; an empty row has an empty one."""
    filled = {at: cell.strip() for at, cell in enumerate(cells) if cell.strip()}
    if not filled:
        return ""
    row = {name: filled.get(columns.get(name, len(cells)), "") for name in COLUMNS}
    return _relation(row).line(row["formula"], row["given"] or None, row["note"])


def _rows(table: str) -> Iterator[list[str]]:
    """The rows of a table, with the delimiter that its head has."""
    head = table.lstrip("\ufeff").partition("\n")[0]
    delimiter = max(DELIMITERS, key=head.count)
    return csv.reader(
        io.StringIO(table.lstrip("\ufeff"), newline=""), delimiter=delimiter, strict=True
    )


def problem_of(table: str) -> str:
    """The problem that a table in CSV states: row N becomes line N, the head `psat 1;`."""
    lines, errors = [], []
    try:
        columns: dict[str, int] = {}
        for number, cells in enumerate(_rows(table), 1):
            if number == 1:
                columns = _columns(cells)
                lines.append("psat 1;")
                continue
            try:
                lines.append(_line(cells, columns))
            except ProblemError as error:
                errors.append(RowError(number, str(error.args[0]), error.hint))
    except csv.Error as error:
        errors.append(RowError(len(lines) + len(errors) + 1, f"no CSV: {error}"))
    if not lines and not errors:
        errors.append(RowError(None, "the table is empty", f"its head is {','.join(COLUMNS)}"))
    if errors:
        raise TableError(errors)
    return "".join(f"{line}\n" for line in [*lines, "end;"])


def _file_name(name: str) -> str:
    """A file's name that no program for tables takes for a formula: the file is the same."""
    return f"./{name}" if name.startswith(FORMULA_SIGNS) else name


def csv_rows(answers: Iterable[Answer]) -> Iterator[dict[str, Cell]]:
    """A row for each query, and one for a problem that has no answered query."""
    for answer in answers:
        front: dict[str, Cell] = {"file": _file_name(answer.file), "verdict": answer.verdict}
        for row in answer.to_rows() or [{"why": answer.why}]:
            yield {**front, **row}


def write_csv(answers: Iterable[Answer], out: TextIO) -> None:
    """Writes answers as CSV, with a head."""
    writer = csv.DictWriter(out, OUTPUT, lineterminator="\n")
    writer.writeheader()
    writer.writerows(csv_rows(answers))


def _read(name: str) -> str:
    data = sys.stdin.buffer.read() if name == "-" else Path(name).read_bytes()
    try:
        return data.decode("utf-8-sig")
    except UnicodeDecodeError as error:
        line = data.count(b"\n", 0, error.start) + 1
        raise ProblemError(f"line {line} isn't UTF-8", "save the table as UTF-8") from error


def _parser() -> argparse.ArgumentParser:
    parser = argparse.ArgumentParser(
        prog="psat-table",
        description=DESCRIPTION,
        epilog=EPILOG,
        formatter_class=argparse.RawDescriptionHelpFormatter,
    )
    parser.add_argument("--csv", action="store_true", help="write answers as CSV")
    parser.add_argument(
        "file", metavar="FILE", nargs="?", help="the table, or - for standard input"
    )
    return parser


def main(words: Sequence[str]) -> int:
    """The program `psat-table`: its exit status."""
    parser = _parser()
    asked = parser.parse_args(words)
    if asked.file is None and not asked.csv:
        parser.error("which table? name its file, or - for standard input")
    name = asked.file or "-"
    shown = "standard input" if name == "-" else name
    try:
        text = _read(name)
        answers = answers_of(text) if asked.csv else []
        problem = "" if asked.csv else problem_of(text)
    except OSError as error:
        tell(f"psat-table: {shown}", str(error.strerror))
        return UNREAD
    except (AnswerError, ProblemError) as error:
        tell(shown, str(error))
        return NO_PROBLEM
    if not asked.csv:
        sys.stdout.write(problem)
        return 0
    write_csv(answers, sys.stdout)
    return max((answer.status for answer in answers), default=0)
