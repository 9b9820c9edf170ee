"""Calls gp2: run, check, fmt, and steps."""
from __future__ import annotations

import os
import re
import shutil
import subprocess
import tempfile
from pathlib import Path
from typing import Any, Dict, Hashable, Iterator, List, Mapping, Optional, Sequence, Set, Tuple, TypeVar, Union

from .errors import BoundSpent, Fail, Gp2Error, NumberFault, OutOfMemory, ProgramNotFound, Refused
from .graph import Graph, Names, _untaken, as_graph, gc_paused
from .journal import Item, Journal
from .text import Printed, read_printed, rules_of

Text = Union[str, "os.PathLike[str]"]
AnyGraph = TypeVar("AnyGraph", bound=Graph)
GraphLike = Union[Graph, "Mapping[str, Any]", Text, Any]


def find_program() -> str:
    """The gp2 that runs: the one of GP2_PROGRAM, of this package's installation or clone, or in the PATH."""
    named = os.environ.get("GP2_PROGRAM")
    if named:
        found = shutil.which(named)
        if not found:
            raise ProgramNotFound(f"GP2_PROGRAM is {named}, and there is no program of that name")
        return os.path.abspath(found)
    top = Path(__file__).resolve().parent.parent.parent
    is_clone = (top / "crates.txt").is_file()
    own = top / "crates/gp2/out/gp2" if is_clone else top.parent.parent / "bin/gp2"
    for found in (str(own), "gp2"):
        if shutil.which(found):
            return shutil.which(found) or found
    if is_clone:
        raise ProgramNotFound(
            f"the program of {top} is not proved yet: a first call of {top}/gp2 proves it;"
            " or GP2_PROGRAM names another gp2"
        )
    raise ProgramNotFound("there is no gp2 in the PATH, and GP2_PROGRAM does not name one")


# ---- files

class _Files:
    """The files that gp2 reads: those that are named, and for texts files in a folder of their own."""

    def __init__(self) -> None:
        self.folder = tempfile.TemporaryDirectory(prefix="gp2-")

    def __enter__(self) -> "_Files":
        return self

    def __exit__(self, *_: object) -> None:
        self.folder.cleanup()

    def of(self, text: Text, name: str) -> str:
        if isinstance(text, str):
            file = os.path.join(self.folder.name, name)
            with open(file, "wb") as made:
                made.write(_as_bytes(text))
            return file
        open(text, "rb").close()  # a file that is not there, or not to be read, is told as Python tells it
        return os.path.abspath(os.fspath(text))


class _Host:
    """A host with the names of its nodes."""

    def __init__(self, graph: GraphLike) -> None:
        self.text: Text
        self._names: Optional[List[Hashable]] = None
        self._name_set: Optional[Set[Hashable]] = None
        if isinstance(graph, (str, os.PathLike)):
            self.text = graph
            if not isinstance(graph, str):
                self.text = Path(graph)
        else:
            made = as_graph(graph)
            self.text = str(made)
            self._names = list(made.nodes)

    @property
    def names(self) -> List[Hashable]:
        """By their numbers. A text is read when they are asked for: it is one that gp2 took."""
        if self._names is None:
            text = self.text
            self._names = list((Graph.from_text(text) if isinstance(text, str) else Graph.from_file(text)).nodes)
        return self._names

    @property
    def name_set(self) -> Set[Hashable]:
        if self._name_set is None:
            self._name_set = set(self.names)
        return self._name_set

    def name_of(self, number: int) -> Hashable:
        """The name of a node of the run: a new one is called nK, where K is its number."""
        return self.names[number] if number < len(self.names) else _untaken(f"n{number}", self.name_set)


def _as_bytes(text: Text) -> bytes:
    return text.encode("utf-8", "surrogateescape") if isinstance(text, str) else Path(text).read_bytes()


# ---- calls

def _number(name: str, value: Optional[int], least: int, most: int) -> List[str]:
    if value is None:
        return []
    if isinstance(value, bool) or not isinstance(value, int):
        raise TypeError(f"{name} is an int from {least} to {most}, and not {value!r}")
    if not least <= value <= most:
        raise ValueError(f"{name} is from {least} to {most}, and not {value}")
    return [f"--{name}", str(value)]


def _call(words: Sequence[str], files: Mapping[str, Text]) -> Tuple[int, str]:
    """The status, 0 or 1, and what is printed; any other status is raised as what it stands for."""
    ended = subprocess.run([find_program(), *words], stdin=subprocess.DEVNULL, capture_output=True)
    if ended.returncode in (0, 1):
        return ended.returncode, ended.stdout.decode("latin-1")
    raise _fault(ended.returncode, ended.stderr.decode("latin-1").strip(), files)


def _fault(status: int, line: str, files: Mapping[str, Text]) -> Exception:
    file, _, fault = line.partition(": ")
    if status in (3, 4, 10, 11) and file in files:
        return _refused(file, fault, files)
    if status == 5:
        return BoundSpent(int(line.split()[-1]))
    if status == 6 and len(line.split()) == 3:
        return NumberFault(*line.split()[1:])
    if status == 7:
        return OutOfMemory("gp2 did not get the memory that it needs")
    if status == 8:
        return OSError(f"gp2 cannot read {fault}")
    return Gp2Error(f"gp2 ended with status {status}" + (f": {line}" if line else ""))


_WITH_OFFSET = ("BadByte", "OpenString", "OpenComment", "NumberTooLong", "NumberRange")


def _refused(file: str, fault: str, files: Mapping[str, Text]) -> Refused:
    if fault == "TooLong":
        return Refused(file, fault)
    text, line, offset = _as_bytes(files[file]).decode("latin-1"), None, None
    words = fault.split()
    if re.fullmatch(r".*\b[Ll]ine [0-9]+", fault):
        line = int(words[-1])
    elif words[0] in _WITH_OFFSET and len(words) == 2:
        offset = int(words[1])
        line = text.count("\n", 0, offset) + 1
    elif words[0] == "rule":
        line = next((rule.line for rule in rules_of(text) if rule.name == words[1].rstrip(":")), None)
    lines = text.split("\n")
    source = "" if line is None or line > len(lines) else lines[line - 1].rstrip()
    source = source.encode("latin-1").decode("utf-8", "replace")
    if fault == "Syntax line 1" and file == "program" and source.endswith(".gp2"):
        source += "\n  a str is the text of a program: a file is named by a pathlib.Path"
    return Refused(file, fault, line, offset, source)


# ---- run

class Result:
    """What a run gave. It is true where the program gave a graph, and false where it failed.

    `text` is what gp2 printed, without the journal. `journal` is the Journal where it was asked for, and otherwise
    None.
    """

    def __init__(self, status: int, printed: str, host: _Host, program: Text, has_journal: bool) -> None:
        self.journal: Optional[Journal] = None
        self.text = printed
        if has_journal:
            end = printed.index("\nend\n") + len("\nend\n")
            self.text = printed[end:]
            rules = [rule.name for rule in rules_of(_as_bytes(program).decode("latin-1"))]
            self.journal = Journal(printed[:end], rules, host.name_of)
        self._failed, self._host = status == 1, host
        self._printed: Optional[Printed] = None
        self._graph: Optional[Graph] = None

    @property
    def failed(self) -> bool:
        """Whether the program failed."""
        return self._failed

    def __bool__(self) -> bool:
        return not self._failed

    @property
    def graph(self) -> Graph:
        """The graph, whose nodes have the names of the host's nodes; a new node is called nK, where K is its number.

        Fail is raised where the program failed.
        """
        if self._graph is None:
            with gc_paused():
                self._graph = _named(self._read(), self.nodes, Graph())
        return self._graph

    @property
    def nodes(self) -> Dict[int, Hashable]:
        """The names by the numbers that gp2 uses: of all nodes of the host, and of the new nodes of the result."""
        names: Dict[int, Hashable] = dict(enumerate(self._host.names))
        if not self._failed:
            for number in self._numbers():
                names.setdefault(number, self._host.name_of(number))
        return names

    @property
    def new(self) -> List[Hashable]:
        """The names of the nodes that the host did not have."""
        return [name for name in self.graph.nodes if name not in self._host.name_set]

    def to_networkx(self, *, node_label: Names = "label", edge_label: Names = "label", create_using: Any = None) -> Any:
        """The graph as a networkx MultiDiGraph; see Graph.to_networkx."""
        return self.graph.to_networkx(node_label=node_label, edge_label=edge_label, create_using=create_using)

    def __repr__(self) -> str:
        return "<gp2.Result: fail>" if self._failed else "<gp2.Result: a graph>"

    def _numbers(self) -> List[int]:
        return [int(name[1:]) for name in self._read().names]

    def _read(self) -> Printed:
        if self._failed:
            raise Fail(self)
        if self._printed is None:
            self._printed = _read_printed(self.text)
        return self._printed


def _read_printed(text: str) -> Printed:
    printed = read_printed(text)
    if printed is None:
        raise Gp2Error("gp2 printed what is no graph")
    return printed


def _named(printed: Printed, names: Mapping[int, Hashable], made: AnyGraph) -> AnyGraph:
    """The printed graph with other names, in the graph `made`."""
    name_of = {name: names[int(name[1:])] for name in printed.names}
    made.nodes = dict(zip(name_of.values(), printed.nodes))
    made.edges = printed.edges(name_of)
    return made


def run(
    program: Text,
    graph: GraphLike,
    *,
    bound: Optional[int] = None,
    seed: Optional[int] = None,
    workers: Optional[int] = None,
    journal: bool = False,
) -> Result:
    """Runs a program on a graph.

    The program is a text, or a pathlib.Path of a file; the graph is a Graph, a networkx graph, a dictionary as
    Graph.from_dict reads it, the text of a host, or the Path of one. `bound` is how many steps and turns of loops the
    run may have (a million, if it is not given), `seed` decides the choices of `or`, `workers` is how many threads
    search, and `journal` asks for the steps of the run. A program that fails gives a result that is false. Raised are
    Refused, BoundSpent, NumberFault, and OutOfMemory. An interrupt ends the run.
    """
    words = _number("bound", bound, 0, 2**40) + _number("seed", seed, 0, 2**64 - 1) + _number("workers", workers, 1, 64)
    host = _Host(graph)
    with _Files() as files:
        said = {"program": program, "host": host.text}
        named = [files.of(program, "program.gp2"), files.of(host.text, "graph.host")]
        status, printed = _call(["run", *named, *words, *["--journal"] * bool(journal)], said)
    return Result(status, printed, host, program, journal)


def check(program: Text, graph: GraphLike, journal: Union[Result, Text], result: Optional[Text] = None) -> bool:
    """Whether a journal and a result are those of a run of the program on the graph.

    Both may be given as texts or as Paths, or as one Result that has a journal.
    """
    if isinstance(journal, Result):
        if journal.journal is None:
            raise ValueError("the result has no journal: run(.., journal=True) makes one")
        return check(program, graph, journal.journal.text, journal.text)
    if result is None:
        raise TypeError("a journal is checked together with a result")
    host = _Host(graph)
    with _Files() as files:
        said = {"program": program, "host": host.text, "trace": journal, "result": result}
        status, _ = _call(["check", *[files.of(text, name) for name, text in said.items()]], said)
    return status == 0


def fmt(program: Text) -> str:
    """The canonical text of a program. Comments are not kept."""
    with _Files() as files:
        return _call(["fmt", files.of(program, "program.gp2")], {"program": program})[1]


class Place(Graph):
    """The graph at a place of a run; `item` is the item of the journal that led there, and None before the first."""

    __slots__ = ("item",)

    def __init__(self, item: Optional[Item] = None) -> None:
        super().__init__()
        self.item = item


def steps(
    program: Text, graph: GraphLike, *, bound: Optional[int] = None, seed: Optional[int] = None
) -> Iterator[Place]:
    """The graphs of a run, one after another: the graph itself, and the one after each item of the journal.

    The run is the one that `run` makes with the same bound and seed and one worker, whether it fails or not. It is made
    when the first graph is asked for, and what it raises is raised then.
    """
    result = run(program, graph, bound=bound, seed=seed, journal=True)
    assert result.journal is not None
    # A turn leaves the graph as it is, so none is shown behind it.
    script = "show\n" + "".join("forward\n" if item.kind == "turn" else "forward\nshow\n" for item in result.journal)
    words = _number("bound", bound, 0, 2**40) + _number("seed", seed, 0, 2**64 - 1)
    host = _Host(graph)
    with _Files() as files:
        named = [files.of(program, "program.gp2"), files.of(host.text, "graph.host"), files.of(script, "moves")]
        with open(os.path.join(files.folder.name, "said"), "w+b") as said:
            stepper = subprocess.Popen(
                [find_program(), "step", *named, *words], stdin=subprocess.DEVNULL, stdout=subprocess.PIPE, stderr=said
            )
            try:
                yield from _places(stepper.stdout, result.journal, host)
            except EOFError:
                said.seek(0)
                texts = {"program": program, "host": host.text}
                raise _fault(stepper.wait(), said.read().decode("latin-1").strip(), texts) from None
            finally:
                stepper.kill()
                stepper.wait()
                if stepper.stdout:
                    stepper.stdout.close()


def _places(lines: Any, journal: Journal, host: _Host) -> Iterator[Place]:
    place = Place()
    for item in (None, *journal):
        if item is not None:
            lines.readline()  # the item itself
        made = Place(item)
        if item is not None and item.kind == "turn":
            made.nodes, made.edges = dict(place.nodes), list(place.edges)
        else:
            printed = _read_printed(_shown(lines))
            _named(printed, {int(name[1:]): host.name_of(int(name[1:])) for name in printed.names}, made)
        place = made
        yield place


def _shown(lines: Any) -> str:
    """The next printed graph, which ends with a line `]`. EOFError says that there is none."""
    graph: List[bytes] = []
    while not graph or graph[-1] != b"]\n":
        graph.append(lines.readline())
        if not graph[-1]:
            raise EOFError
    return b"".join(graph).decode("latin-1")
