"""Runs programs in GP 2, the rule-based graph transformation language.

    >>> import gp2
    >>> rule = "link(x:int) [ (n, x) (m, x) | ] => [ (n, x) (m, x:1) | (e, n, m, empty) ] interface = {n, m}"
    >>> result = gp2.run("Main = link! " + rule, {"nodes": {"a": 7, "b": 7}})
    >>> result.graph.edges
    [Edge(source='a', target='b', label=(), mark=None)]

Begin with `run`; its graphs are a `Graph`, a networkx graph, a dictionary, or the text of a host. A `str` is always a
text, and a file is named by a `pathlib.Path`. The program that runs is the one that GP2_PROGRAM names, the one of the
installation or the clone that this package belongs to, or `gp2` in the PATH.
"""
from __future__ import annotations

from pathlib import Path as _Path

from .errors import BoundSpent, Fail, Gp2Error, NumberFault, OutOfMemory, ProgramNotFound, Refused
from .graph import Atom, Edge, Graph, Label, Node
from .journal import Item, Journal
from .running import Place, Result, check, find_program, fmt, run, steps

__all__ = [
    "Atom", "BoundSpent", "Edge", "Fail", "Gp2Error", "Graph", "Item", "Journal", "Label", "Node", "NumberFault",
    "OutOfMemory", "Place", "ProgramNotFound", "Refused", "Result", "check", "find_program", "fmt", "run", "steps",
]


def _version() -> str:
    """The version, which stands once, in VERSION: above this folder in a clone and where scripts/install puts it."""
    try:
        return (_Path(__file__).resolve().parent.parent.parent / "VERSION").read_text().strip()
    except OSError:
        from importlib.metadata import PackageNotFoundError, version

        try:
            return version("gp2")
        except PackageNotFoundError:
            return "unknown"


__version__ = _version()
