"""What goes wrong with a run, as exceptions. All are a Gp2Error."""
from __future__ import annotations

from typing import TYPE_CHECKING, Optional

if TYPE_CHECKING:
    from .running import Result


class Gp2Error(Exception):
    """Whatever keeps gp2 from giving an answer."""


class ProgramNotFound(Gp2Error):
    """There is no gp2 to run."""


class Refused(Gp2Error, ValueError):
    """A program, a host, a journal, a result, or a script was rejected.

    `file` is "program", "host", "trace", "result", or "script", and `fault` what gp2 says of it, as in
    docs/LANGUAGE.md. `line` is its line, counted from 1: the one that gp2 names, the one of the offset that it names,
    or the one at which the rule that it names is declared; None where there is no such line. `offset` is the offset
    that gp2 names, in bytes from 0.
    """

    def __init__(
        self, file: str, fault: str, line: Optional[int] = None, offset: Optional[int] = None, source: str = ""
    ) -> None:
        told = f"{file}: {fault}"
        if line is not None and f"line {line}" not in fault:
            told += f" (line {line})"
        if source:
            told += f"\n  {source}"
        super().__init__(told)
        self.file, self.fault, self.line, self.offset = file, fault, line, offset


class BoundSpent(Gp2Error):
    """The run counted `bound` steps and turns of loops and was about to begin another one."""

    def __init__(self, bound: int) -> None:
        super().__init__(f"the run did not end within {bound} steps and turns of loops; `bound` allows more")
        self.bound = bound


class NumberFault(Gp2Error, ArithmeticError):
    """A step of the rule `rule` has no value: `kind` is "past-128-bits" or "zero-divisor"."""

    def __init__(self, rule: str, kind: str) -> None:
        what = {"past-128-bits": "a number that does not fit into 128 bits", "zero-divisor": "a division by zero"}
        super().__init__(f"rule {rule}: {what.get(kind, kind)}")
        self.rule, self.kind = rule, kind


class OutOfMemory(Gp2Error, MemoryError):
    """gp2 did not get the memory that it needs."""


class Fail(Gp2Error):
    """The program failed, so there is no graph; `result` is the result that was asked for one."""

    def __init__(self, result: "Result") -> None:
        super().__init__("the program failed, so there is no graph (a result is false where the program failed)")
        self.result = result
