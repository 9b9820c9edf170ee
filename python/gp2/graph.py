"""Graphs with labels, marks, and roots, and their text as hosts."""
from __future__ import annotations

import gc
import re
from collections import Counter
from contextlib import contextmanager
from numbers import Integral
from os import PathLike
from pathlib import Path
from typing import TYPE_CHECKING, Any, Dict, Hashable, Iterable, Iterator, List, Mapping, NamedTuple, NoReturn, Optional
from typing import Sequence, Tuple, Union

if TYPE_CHECKING:
    import networkx

Atom = Union[int, str]
Label = Tuple[Atom, ...]
Names = Union[str, Sequence[str]]

NODE_MARKS = (None, "red", "green", "blue", "grey")
EDGE_MARKS = (None, "red", "green", "blue", "dashed")
RESERVED = frozenset(
    "interface where empty not and or edge indeg outdeg length int char string atom list".split()
    + "if then else try skip fail break".split()
)
LEAST, MOST = -(2**127), 2**127 - 1
_TEXT = re.compile(r"[ !#-~]*")
_WORD = re.compile(r"[A-Za-z0-9_]*[A-Za-z_][A-Za-z0-9_]*")


class Node(NamedTuple):
    """What a graph has at a node."""

    label: Label = ()
    mark: Optional[str] = None
    root: bool = False


class Edge(NamedTuple):
    """An edge between two nodes, which are given by their names."""

    source: Hashable
    target: Hashable
    label: Label = ()
    mark: Optional[str] = None


def as_atom(value: Any) -> Atom:
    """The value as an atom: an int of 128 bits, or a str of the characters 32 to 126 without the quotation mark."""
    if isinstance(value, str):
        if not _TEXT.fullmatch(value):
            raise ValueError(f"{value!r}: a string in a label has only the characters 32 to 126, and no quotation mark")
        return str(value)
    if isinstance(value, Integral) and not isinstance(value, bool):
        number = int(value)
        if not LEAST <= number <= MOST:
            raise ValueError(f"{number} does not fit into 128 bits")
        return number
    raise TypeError(f"{value!r} is neither an int nor a str, so it cannot be in a label")


def as_label(value: Any) -> Label:
    """The value as a label: None is empty, an int or a str one atom, and a tuple or a list so many atoms."""
    kind = type(value)
    if kind is int and LEAST <= value <= MOST:
        return (value,)
    if kind is tuple or kind is list:
        return tuple(map(as_atom, value))
    if value is None:
        return ()
    return (as_atom(value),)


def plain_label(label: Label) -> Union[Atom, Label]:
    """A label of one atom as that atom, and any other one as a tuple."""
    return label[0] if len(label) == 1 else label


def _as_mark(mark: Optional[str], marks: Tuple[Optional[str], ...]) -> Optional[str]:
    if mark not in marks:
        kind = "a node" if marks is NODE_MARKS else "an edge"
        raise ValueError(f"{mark!r} is not a mark for {kind}, which are {', '.join(map(str, marks[1:]))}")
    return mark


def _host_name(name: Hashable) -> str:
    """The name as a host can have it, or an empty text."""
    if isinstance(name, str):
        if _WORD.fullmatch(name):
            return "" if name in RESERVED else name
        return name if name.isascii() and name.isdigit() and int(name) <= 2**127 else ""
    if type(name) is int and 0 <= name <= 2**127:
        return str(name)
    return ""


def _label_text(label: Label, mark: Optional[str]) -> str:
    if len(label) == 1:
        (atom,) = label
        text = str(atom) if type(atom) is int else f'"{as_atom(atom)}"'
    elif label:
        text = ":".join([str(atom) if type(atom) is int else f'"{as_atom(atom)}"' for atom in label])
    else:
        text = "empty"
    return text if mark is None else f"{text} # {mark}"


class Graph:
    """A directed graph whose nodes and edges have labels and marks, and whose nodes may be roots.

    `nodes` maps names, which may be any hashable values, to a `Node`; `edges` is a list of `Edge`. Their order is
    that of the numbers that gp2 gives them. Two graphs are equal if they have the same nodes and the same edges, in
    whatever order.
    """

    __slots__ = ("nodes", "edges")
    __hash__ = None  # type: ignore[assignment]

    def __init__(self) -> None:
        self.nodes: Dict[Hashable, Node] = {}
        self.edges: List[Edge] = []

    def add_node(self, name: Hashable, label: Any = (), mark: Optional[str] = None, root: bool = False) -> None:
        """Adds a node. The label is an int, a str, a sequence of these, or None for the empty label."""
        if name in self.nodes:
            raise ValueError(f"there is already a node {name!r}")
        try:
            self.nodes[name] = Node(as_label(label), _as_mark(mark, NODE_MARKS), bool(root))
        except (TypeError, ValueError) as error:
            raise type(error)(f"node {name!r}: {error}") from None

    def add_edge(self, source: Hashable, target: Hashable, label: Any = (), mark: Optional[str] = None) -> None:
        """Adds an edge between two nodes of the graph."""
        for end in (source, target):
            if end not in self.nodes:
                raise ValueError(f"there is no node {end!r}")
        try:
            self.edges.append(Edge(source, target, as_label(label), _as_mark(mark, EDGE_MARKS)))
        except (TypeError, ValueError) as error:
            raise type(error)(f"edge from {source!r} to {target!r}: {error}") from None

    def __eq__(self, other: object) -> bool:
        if not isinstance(other, Graph):
            return NotImplemented
        return self.nodes == other.nodes and Counter(self.edges) == Counter(other.edges)

    def __repr__(self) -> str:
        return f"<gp2.{type(self).__name__}: {_counted(self.nodes, 'node')}, {_counted(self.edges, 'edge')}>"

    # ---- text

    def host_names(self) -> List[str]:
        """What the nodes are called in the text: their names where a host can have them, and otherwise nK by number."""
        names = [_host_name(name) for name in self.nodes]
        taken = set()
        for number, name in enumerate(names):
            if name in taken:  # as 7 and "7"
                names[number] = ""
            taken.add(name)
        for number, name in enumerate(names):
            if not name:
                names[number] = _untaken(f"n{number}", taken)
                taken.add(names[number])
        return names

    def __str__(self) -> str:
        """The text of the graph as a host."""
        names = self.host_names()
        nodes = [
            f"  ({name}{'(R)' if root else ''}, {_label_text(label, mark)})\n"
            for name, (label, mark, root) in zip(names, self.nodes.values())
        ]
        name_of = dict(zip(self.nodes, names))
        edges = [
            f"  (e{number}, {name_of[source]}, {name_of[target]}, {_label_text(label, mark)})\n"
            for number, (source, target, label, mark) in enumerate(self.edges)
        ]
        return "".join(["[\n", *nodes, "|\n", *edges, "]\n"])

    @classmethod
    def from_text(cls, text: str) -> "Graph":
        """Reads a host, or a graph that gp2 printed; names are texts. ValueError says in which line it is none."""
        from .text import read_host

        return read_host(text, cls())

    @classmethod
    def from_file(cls, file: Union[str, "PathLike[str]"]) -> "Graph":
        """Reads the host in a file."""
        return cls.from_text(Path(file).read_bytes().decode("latin-1"))

    # ---- dictionaries

    @classmethod
    def from_dict(cls, data: Mapping[str, Any]) -> "Graph":
        """Makes a graph of {"nodes": .., "edges": ..}.

        `nodes` maps names to labels, or to dictionaries with any of "label", "mark", and "root"; or it is a sequence
        of names. An edge is (source, target), (source, target, label), or (source, target, a dictionary with "label"
        and "mark"). Without "nodes", the nodes are the ends of the edges, with empty labels.
        """
        unknown = [key for key in data if key not in ("nodes", "edges")]
        if unknown:
            raise ValueError(f'a graph as a dictionary has the keys "nodes" and "edges", but not {unknown[0]!r}')
        if not data:
            raise ValueError("there are neither nodes nor edges")
        graph = cls()
        edges = [tuple(edge) for edge in data.get("edges", ())]
        nodes = data.get("nodes")
        if nodes is None:
            nodes = dict.fromkeys(end for edge in edges for end in edge[:2])
        for name in nodes:
            said = nodes[name] if isinstance(nodes, Mapping) else None
            graph.add_node(name, **_said(said, ("label", "mark", "root"), f"node {name!r}"))
        for edge in edges:
            if not 2 <= len(edge) <= 3:
                raise ValueError(f"edge {edge!r}: an edge has a source, a target, and at most a label or a dictionary")
            said = edge[2] if len(edge) == 3 else None
            graph.add_edge(edge[0], edge[1], **_said(said, ("label", "mark"), f"edge {edge!r}"))
        return graph

    def to_dict(self) -> Dict[str, Any]:
        """The graph as a dictionary that from_dict reads."""
        nodes = {
            name: {"label": plain_label(node.label), "mark": node.mark, "root": node.root}
            for name, node in self.nodes.items()
        }
        edges = [
            (source, target, {"label": plain_label(label), "mark": mark}) for source, target, label, mark in self.edges
        ]
        return {"nodes": nodes, "edges": edges}

    # ---- networkx

    @classmethod
    def from_networkx(
        cls,
        graph: "networkx.Graph",
        *,
        node_label: Names = "label",
        edge_label: Names = "label",
        undirected: Optional[str] = None,
    ) -> "Graph":
        """Makes a graph of a networkx graph; names stay as they are.

        A label comes from the attribute `label`, or from the one that `node_label` or `edge_label` names: an int, a
        str, or a sequence of these; it is empty where there is no such attribute. If a sequence of names is given,
        each attribute is one atom. The attribute `mark` is the mark, and `root` says whether a node is a root. All
        edges of a Graph are directed, so an undirected networkx graph needs `undirected`: "one" makes an edge in one
        direction, and "both" an edge in each direction (one of a loop).
        """
        from .networks import from_networkx

        with gc_paused():
            return from_networkx(graph, cls(), node_label, edge_label, undirected)

    def to_networkx(self, *, node_label: Names = "label", edge_label: Names = "label", create_using: Any = None) -> Any:
        """The graph as a networkx MultiDiGraph, or as `create_using` says.

        The attribute `label` (or `node_label`, `edge_label`) is the atom of a label of one atom, and otherwise a
        tuple; with a sequence of names, each atom is an attribute. `mark` and `root` are set where there is a mark or
        a root. ValueError says where `create_using` cannot represent the edges.
        """
        from .networks import to_networkx

        with gc_paused():
            return to_networkx(self, node_label, edge_label, create_using)


@contextmanager
def gc_paused() -> Iterator[None]:
    """While a graph is made, Python does not look again and again for cycles among its parts: there are none."""
    was_on = gc.isenabled()
    gc.disable()
    try:
        yield
    finally:
        if was_on:
            gc.enable()


def _counted(things: Any, name: str) -> str:
    return f"{len(things)} {name}{'' if len(things) == 1 else 's'}"


def _untaken(name: str, taken: Iterable[Hashable]) -> str:
    while name in taken:
        name += "_"
    return name


def _said(said: Any, keys: Tuple[str, ...], where: str) -> Dict[str, Any]:
    if not isinstance(said, Mapping):
        return {"label": said}
    for key in said:
        if key not in keys:
            raise ValueError(f"{where}: {key!r} is none of {', '.join(keys)}")
    return dict(said)


def as_graph(graph: Any) -> Graph:
    """A Graph of a Graph, a networkx graph, or a dictionary."""
    if isinstance(graph, Graph):
        return graph
    if isinstance(graph, Mapping):
        return Graph.from_dict(graph)
    if hasattr(graph, "is_directed") and hasattr(graph, "nodes"):
        return Graph.from_networkx(graph)
    no_graph(graph)


def no_graph(graph: Any) -> NoReturn:
    raise TypeError(
        f"a {type(graph).__name__} is no graph: use a gp2.Graph, a networkx graph, a dict, the text of a host,"
        " or a pathlib.Path"
    )
