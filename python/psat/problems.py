"""Writes problems: each name, formula and value is checked where it is handed in."""
from __future__ import annotations

import difflib
import re
from collections.abc import Iterable, Iterator, Mapping
from dataclasses import dataclass
from decimal import Decimal
from fractions import Fraction
from numbers import Rational
from typing import Union

from .errors import ProblemError

Number = Union[Fraction, Decimal, int, float, str]
# Formulas with their coefficients: the sum of their probabilities, each times its number.
Sum = Mapping[str, Number]
# The names that may stand in formulas, or None where all may.
Names = Union[frozenset[str], None]

RESERVED = frozenset({"psat", "P", "given", "in", "query", "end", "true", "false"})
TRUTH = frozenset({"true", "false"})
BINARY = frozenset({"&", "|", "->", "<->"})
LONGEST_NAME = 32
LARGEST_DENOMINATOR = 1_000_000
LARGEST_NUMBER = 1_000_000
MOST_TERMS = 16
LONGEST_NUMBER = 100
DECIMALS = 6

_TOKEN = re.compile(r"(?P<word>[A-Za-z][A-Za-z0-9_]*)|(?P<symbol><->|->|[()!&|])|(?P<other>\S)")
_NUMBER = re.compile(r"[0-9]+(?:/(?P<denominator>[0-9]+)|\.(?P<decimals>[0-9]+))?")
_NAME_HINT = "a name is a letter a to z or A to Z, then letters, digits and _"
_FORMULA_HINT = "a formula has names, !, &, |, ->, <-> and parentheses"


def _checked_name(name: str, names: Names) -> str:
    if name in RESERVED:
        raise ProblemError(f"{name} is no name: the word is taken", "write another name")
    if len(name) > LONGEST_NAME:
        raise ProblemError(f"the name {name} has {len(name)} letters", f"{LONGEST_NAME} at most")
    if names is not None and name not in names:
        near = difflib.get_close_matches(name, names, n=1)
        raise ProblemError(f"{name} is none of the names", f"is {near[0]} meant?" if near else None)
    return name


def _declared(names: Iterable[str]) -> frozenset[str]:
    for name in names:
        if not re.fullmatch(r"[A-Za-z][A-Za-z0-9_]*", name):
            raise ProblemError(f"{name!r} is no name", _NAME_HINT)
        _checked_name(name, None)
    return frozenset(names)


def formula_text(formula: str, names: Names = None) -> str:
    """A formula with single blanks, once its names, operators and parentheses are checked."""

    def refuse(what: str, hint: str | None = None) -> ProblemError:
        return ProblemError(f"{formula!r} is no formula: {what}", hint)

    depth, is_operand_due = 0, True
    for token in _TOKEN.finditer(formula):
        word, text = token["word"], token[0]
        if token["other"]:
            raise refuse(f"{text!r} can't stand in it", _FORMULA_HINT)
        if is_operand_due:
            if word and word not in TRUTH:
                _checked_name(word, names)
            elif not word and text not in "!(":
                raise refuse(f"a name is missing before {text!r}")
            depth += text == "("
            is_operand_due = not word
        elif text in BINARY:
            is_operand_due = True
        elif text == ")":
            depth -= 1
            if depth < 0:
                raise refuse("a parenthesis is closed that isn't open")
        else:
            raise refuse(f"an operator is missing before {text!r}", "write &, |, -> or <->")
    if is_operand_due:
        raise refuse("a name is missing at its end")
    if depth:
        raise refuse("a parenthesis isn't closed")
    return " ".join(formula.split())


def _out_of_range(number: object, most: int) -> ProblemError:
    if most == 1:
        return ProblemError(f"{number} is no probability", "write a number from 0 to 1")
    return ProblemError(
        f"{number} is no number of a sum, which is of size {most} at most",
        "divide all numbers of the sentence by the same one",
    )


def _decimal_text(value: Decimal, most: int) -> str:
    if not value.is_finite() or not 0 <= value <= most:
        raise _out_of_range(value, most)
    rounded = abs(value).quantize(Decimal(10) ** -DECIMALS)
    if rounded != value:
        raise ProblemError(
            f"{value} has more than {DECIMALS} decimals", "write a fraction, or round it"
        )
    return f"{rounded:f}".rstrip("0").rstrip(".")


def _fraction_text(value: Rational, most: int) -> str:
    fraction = Fraction(value.numerator, value.denominator)
    if not 0 <= fraction <= most:
        raise _out_of_range(fraction, most)
    if fraction.denominator > LARGEST_DENOMINATOR:
        raise ProblemError(
            f"{fraction} has a denominator above {LARGEST_DENOMINATOR}",
            "write an interval around it",
        )
    return str(fraction)


def _hint_on(text: str) -> str:
    if text.endswith("%"):
        return "write 0.3 for 30%"
    if "," in text:
        return "write 0.3 for 0,3"
    return "write it as 0.3 or 3/10"


def _spelled_text(text: str, most: int) -> str:
    number = _NUMBER.fullmatch(text)
    if not number:
        raise ProblemError(f"{text!r} is no number of a problem", _hint_on(text))
    if len(text) > LONGEST_NUMBER or len(number["decimals"] or "") > DECIMALS:
        raise ProblemError(f"{text[:LONGEST_NUMBER]} is too long", f"{DECIMALS} decimals at most")
    denominator = int(number["denominator"] or 1)
    if denominator == 0:
        raise ProblemError(f"{text} has the denominator 0")
    if denominator > LARGEST_DENOMINATOR:
        raise ProblemError(f"{text} has a denominator above {LARGEST_DENOMINATOR}")
    if Fraction(text) > most:
        raise _out_of_range(text, most)
    return text


def value_text(value: Number, most: int = 1) -> str:
    """A value as a problem has it: a string as it is, a float as the decimal that Python shows."""
    if isinstance(value, str):
        return _spelled_text(value.strip(), most)
    if isinstance(value, Rational):
        return _fraction_text(value, most)
    if isinstance(value, Decimal):
        return _decimal_text(value, most)
    if isinstance(value, float):
        return _decimal_text(Decimal(float.__repr__(value)), most)
    raise ProblemError(f"{value!r} is no number", "write a Fraction, or a string as '0.3'")


def _unsigned(value: Number) -> tuple[bool, Number]:
    """Whether a number of a sum is below 0, and its size."""
    if isinstance(value, str):
        text = value.strip()
        return text.startswith("-"), text[1:].lstrip() if text.startswith("-") else text
    if isinstance(value, Decimal):
        return value.is_signed() and not value.is_zero(), value.copy_abs()
    if isinstance(value, (Rational, float)):
        return value < 0, abs(value)
    return False, value


def _term_text(formula: str, coefficient: Number, is_first: bool, names: Names) -> str:
    """A term with the sign before it; its coefficient is spelled."""
    is_negative, size = _unsigned(coefficient)
    sign = ("- " if is_negative else "") if is_first else (" - " if is_negative else " + ")
    return f"{sign}{value_text(size, LARGEST_NUMBER)} P({formula_text(formula, names)})"


def sum_text(terms: Sum, names: Names = None) -> str:
    """The sum of the probabilities of formulas, each times its coefficient."""
    if not 1 <= len(terms) <= MOST_TERMS:
        raise ProblemError(f"the sum has {len(terms)} terms", f"1 to {MOST_TERMS}")
    return "".join(
        _term_text(formula, coefficient, place == 0, names)
        for place, (formula, coefficient) in enumerate(terms.items())
    )


def _signed_text(value: Number) -> str:
    """The right side of a sum."""
    is_negative, size = _unsigned(value)
    return "-" * is_negative + value_text(size, LARGEST_NUMBER)


def note_text(note: str | None) -> str:
    """A comment for the end of a line: a note can't end its line, nor command a terminal."""
    words = " ".join((note or "").split())
    words = "".join(letter if letter.isprintable() else "?" for letter in words)
    return f"  # {words}" if words else ""


def _left_text(formula: str | Sum, given: str | None, names: Names) -> str:
    """What a sentence bounds: a probability, or a sum of them."""
    if not isinstance(formula, str):
        if given is not None:
            raise ProblemError("a sum has no condition", "put it into each formula by &")
        return sum_text(formula, names)
    inside = formula_text(formula, names)
    if given is not None:
        inside += f" given {formula_text(given, names)}"
    return f"P({inside})"


@dataclass(frozen=True)
class Relation:
    """What a sentence says of a probability: an operator with its values, or nothing of a query."""

    operator: str
    values: tuple[Number, ...] = ()

    def line(
        self, formula: str | Sum, given: str | None, note: str | None, names: Names = None
    ) -> str:
        """The line of a problem that says it of a formula, or of a sum."""
        left = _left_text(formula, given, names)
        spell = value_text if isinstance(formula, str) else _signed_text
        values = [spell(value) for value in self.values]
        if self.operator == "query":
            text = f"query {left};"
        elif self.operator == "in":
            text = f"{left} in [{values[0]}, {values[1]}];"
        else:
            text = f"{left} {self.operator} {values[0]};"
        return text + note_text(note)


class Problem:
    """A problem that is put together: `str` of it is its text, with one sentence or query a line.

    With `names` a formula may use these names alone, so that a misspelt one is refused.

    In place of a formula a sentence takes a sum, formulas with their coefficients:
    `at_least({"a": 1, "b": -1}, 0)` states that `a` is at least as probable as `b`. The text is then
    one of version 2.
    """

    def __init__(self, names: Iterable[str] | None = None) -> None:
        self._names = None if names is None else _declared(tuple(names))
        self._lines: list[str] = []
        self._version = 1

    def _add(
        self, relation: Relation, formula: str | Sum, given: str | None, note: str | None
    ) -> Problem:
        self._lines.append(relation.line(formula, given, note, self._names))
        if not isinstance(formula, str):
            self._version = 2
        return self

    def exactly(
        self,
        formula: str | Sum,
        value: Number,
        *,
        given: str | None = None,
        note: str | None = None,
    ) -> Problem:
        """States `P(formula given given) = value`."""
        return self._add(Relation("=", (value,)), formula, given, note)

    def at_least(
        self,
        formula: str | Sum,
        value: Number,
        *,
        given: str | None = None,
        note: str | None = None,
    ) -> Problem:
        """States `P(formula given given) >= value`."""
        return self._add(Relation(">=", (value,)), formula, given, note)

    def at_most(
        self,
        formula: str | Sum,
        value: Number,
        *,
        given: str | None = None,
        note: str | None = None,
    ) -> Problem:
        """States `P(formula given given) <= value`."""
        return self._add(Relation("<=", (value,)), formula, given, note)

    def between(
        self,
        formula: str | Sum,
        low: Number,
        high: Number,
        *,
        given: str | None = None,
        note: str | None = None,
    ) -> Problem:
        """States `P(formula given given) in [low, high]`."""
        return self._add(Relation("in", (low, high)), formula, given, note)

    def always(self, formula: str, *, note: str | None = None) -> Problem:
        """States that a formula has probability 1, as a law."""
        return self.exactly(formula, 1, note=note)

    def never(self, formula: str, *, note: str | None = None) -> Problem:
        """States that a formula has probability 0."""
        return self.exactly(formula, 0, note=note)

    def query(self, formula: str, *, given: str | None = None, note: str | None = None) -> Problem:
        """Asks for the bounds of `P(formula given given)`."""
        if not isinstance(formula, str):
            raise ProblemError("a query asks for one probability", "ask for each by itself")
        return self._add(Relation("query"), formula, given, note)

    def __iter__(self) -> Iterator[str]:
        """The lines of the text."""
        return iter([f"psat {self._version};", *self._lines, "end;"])

    def __str__(self) -> str:
        return "".join(f"{line}\n" for line in self)
