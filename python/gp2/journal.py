"""The journal of a run: what it did, one item after another."""
from __future__ import annotations

from typing import Callable, Hashable, List, NamedTuple, Optional, Sequence, Tuple, Union, overload


class Item(NamedTuple):
    """A line of a journal.

    `kind` is "turn" where a turn of a loop begins, "step" for a step of a rule, and "back" where the last `undone`
    steps were undone. Of a step there are the name and the number of the rule, and the nodes and edges that its left
    side matched, in its order: nodes by their names, edges by their numbers, and in `against` the positions of those
    that were matched against their direction.
    """

    kind: str
    line: str
    rule: str = ""
    rule_number: int = -1
    nodes: Tuple[Hashable, ...] = ()
    edges: Tuple[int, ...] = ()
    against: Tuple[int, ...] = ()
    undone: int = 0

    def __str__(self) -> str:
        return self.line


class Journal(Sequence[Item]):
    """The items of a run; `text` is the journal as gp2 prints it, from its first line to `end`."""

    def __init__(self, text: str, rules: Sequence[str], name_of: Callable[[int], Hashable]) -> None:
        self.text = text
        self._rules, self._name_of = rules, name_of
        self._lines = text.split("\n")[1:-2]
        self._items: List[Optional[Item]] = [None] * len(self._lines)

    def __len__(self) -> int:
        return len(self._lines)

    @overload
    def __getitem__(self, at: int) -> Item: ...
    @overload
    def __getitem__(self, at: slice) -> List[Item]: ...
    def __getitem__(self, at: Union[int, slice]) -> Union[Item, List[Item]]:
        if isinstance(at, slice):
            return [self[it] for it in range(*at.indices(len(self)))]
        item = self._items[at]
        if item is None:
            item = self._items[at] = self._read(self._lines[at])
        return item

    def __repr__(self) -> str:
        return f"<gp2.Journal: {len(self)} item{'' if len(self) == 1 else 's'}>"

    def _read(self, line: str) -> Item:
        words = line.split(" ")
        if words[0] == "turn":
            return Item("turn", line)
        if words[0] == "back":
            return Item("back", line, undone=int(words[1]))
        rule, behind = int(words[1]), words.index("edges")
        edges = words[behind + 1:]
        return Item(
            "step", line, self._rules[rule], rule,
            tuple([self._name_of(int(number)) for number in words[3:behind]]),
            tuple([int(number.rstrip("~")) for number in edges]),
            tuple([at for at, number in enumerate(edges) if number.endswith("~")]),
        )
