"""What `psat_ask --json` writes, as objects. Members that aren't known here are in `json` alone."""
from __future__ import annotations

import json
from collections.abc import Mapping
from dataclasses import dataclass, field
from fractions import Fraction
from typing import Any, Literal, Union, get_args

from .errors import AnswerError

Verdict = Literal["consistent", "inconsistent", "open"]
Status = Literal["bounds", "one value", "impossible", "open"]
Others = Literal["met", "clash", "unknown"]
Cell = Union[str, Fraction, None]


def _one_of(words: Any, word: Any) -> Any:
    """The word, which is one of these."""
    if word not in get_args(words):
        raise ValueError(f"{word!r} is none of {get_args(words)}")
    return word


@dataclass(frozen=True)
class Reached:
    """A query's probability in some distribution that meets all sentences, and its decimal."""

    exact: Fraction
    decimal: str

    @classmethod
    def from_json(cls, reached: Mapping[str, Any]) -> Reached:
        return cls(Fraction(reached["exact"]), reached["decimal"])


@dataclass(frozen=True)
class Side:
    """One side of an interval: the exact bound and its decimal, or why it is open.

    A bound that is open lies between `proved`, which is 0 or 1, and `reached`, where that is known.
    """

    exact: Fraction | None
    decimal: str | None
    why: str | None
    proved: Fraction | None = None
    reached: Reached | None = None

    @classmethod
    def from_json(cls, side: Mapping[str, Any]) -> Side:
        exact, proved, reached = side["exact"], side.get("proved"), side.get("reached")
        return cls(
            None if exact is None else Fraction(exact),
            side["decimal"],
            side["why"],
            None if proved is None else Fraction(proved),
            reached and Reached.from_json(reached),
        )


@dataclass(frozen=True)
class Query:
    """A query and the answer to it."""

    text: str
    status: Status
    why: str | None
    lower_side: Side | None
    upper_side: Side | None

    @classmethod
    def from_json(cls, query: Mapping[str, Any]) -> Query:
        sides = (query[name] and Side.from_json(query[name]) for name in ("lower", "upper"))
        return cls(query["query"], _one_of(Status, query["status"]), query["why"], *sides)

    @property
    def lower(self) -> Fraction | None:
        """The greatest lower bound, or None where there is none or it is open."""
        return self.lower_side.exact if self.lower_side else None

    @property
    def upper(self) -> Fraction | None:
        """The least upper bound, or None where there is none or it is open."""
        return self.upper_side.exact if self.upper_side else None

    @property
    def reasons(self) -> tuple[str, ...]:
        """What left the query, or a side of it, open."""
        if self.why:
            return (self.why,)
        sides = {"lower bound": self.lower_side, "upper bound": self.upper_side}
        return tuple(f"{name}: {side.why}" for name, side in sides.items() if side and side.why)


@dataclass(frozen=True)
class ClashSentence:
    """A sentence of a clash. `without` tells what all other sentences come to without it."""

    number: int
    line: int
    text: str
    without: Others

    @classmethod
    def from_json(cls, sentence: Mapping[str, Any]) -> ClashSentence:
        without = _one_of(Others, sentence["without"])
        return cls(sentence["number"], sentence["line"], sentence["text"], without)


@dataclass(frozen=True)
class Clash:
    """Sentences that can't be met together. Where `irreducible`, each of them is needed for it."""

    irreducible: bool
    why: str | None
    sentences: tuple[ClashSentence, ...]

    @classmethod
    def from_json(cls, clash: Mapping[str, Any]) -> Clash:
        sentences = tuple(map(ClashSentence.from_json, clash["sentences"]))
        return cls(clash["irreducible"], clash["why"], sentences)


@dataclass(frozen=True)
class TextWarning:
    """A warning: what the problem may not mean. `kind` is as for `--no-warnings`."""

    line: int | None
    kind: str
    text: str

    @classmethod
    def from_json(cls, warning: Mapping[str, Any]) -> TextWarning:
        return cls(warning["line"], warning["kind"], warning["text"])


@dataclass(frozen=True)
class Answer:
    """The answer to a problem. `json` is the object as the program wrote it."""

    file: str
    verdict: Verdict
    why: str | None
    queries: tuple[Query, ...]
    clash: Clash | None
    warnings: tuple[TextWarning, ...]
    open: int
    status: int
    json: Mapping[str, Any] = field(repr=False, compare=False)

    @classmethod
    def from_json(cls, answer: Mapping[str, Any]) -> Answer:
        return cls(
            file=answer["file"],
            verdict=_one_of(Verdict, answer["verdict"]),
            why=answer["why"],
            queries=tuple(map(Query.from_json, answer["queries"])),
            clash=answer["clash"] and Clash.from_json(answer["clash"]),
            warnings=tuple(map(TextWarning.from_json, answer["warnings"])),
            open=answer["counts"]["open"],
            status=answer["status"],
            json=answer,
        )

    def to_rows(self) -> list[dict[str, Cell]]:
        """A row for each query, as `pandas.DataFrame` and `csv.DictWriter` take them."""
        return [
            {
                "query": query.text,
                "status": query.status,
                "lower": query.lower,
                "upper": query.upper,
                "lower_decimal": query.lower_side.decimal if query.lower_side else None,
                "upper_decimal": query.upper_side.decimal if query.upper_side else None,
                "why": "; ".join(query.reasons) or None,
            }
            for query in self.queries
        ]


def answers_of(lines: str) -> list[Answer]:
    """The answers of what `psat_ask --json` wrote, one object a line."""
    answers = []
    for number, line in enumerate(filter(None, lines.split("\n")), 1):
        try:
            answers.append(Answer.from_json(json.loads(line)))
        except (ValueError, LookupError, TypeError, AttributeError, ArithmeticError) as error:
            raise AnswerError(f"line {number} is no answer of psat_ask --json") from error
    return answers
