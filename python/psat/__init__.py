"""Asks psat: whether probabilities can all be right at once, and what follows from them.

    import psat
    text = "psat 1; P(rain) = 0.3; P(wet given rain) = 0.9; query P(wet); end;"
    answer = psat.ask(text)
    wet = answer.queries[0]
    print(answer.verdict, wet.lower, wet.upper)

Bounds are exact, as `fractions.Fraction`. The package calls the installed programs.
"""
from __future__ import annotations

from .answers import Answer, Clash, ClashSentence, Query, Reached, Side, TextWarning
from .errors import (
    AnswerError,
    Fault,
    ProblemError,
    ProgramFailed,
    ProgramMissing,
    PsatError,
    TextError,
)
from .problems import Problem
from .programs import Judgement, ask, check, report

__all__ = [
    "Answer",
    "AnswerError",
    "Clash",
    "ClashSentence",
    "Fault",
    "Judgement",
    "Problem",
    "ProblemError",
    "ProgramFailed",
    "ProgramMissing",
    "PsatError",
    "Query",
    "Reached",
    "Side",
    "TextError",
    "TextWarning",
    "ask",
    "check",
    "report",
]
