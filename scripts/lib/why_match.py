"""`why match`: why a rule has no match on a host. `gp2` itself is asked, with weaker forms of the rule.

A form keeps the left side and the condition, and deletes what the rule deletes; on its right side nothing is
computed. So a form matches where the rule would if just the named changes were made to it."""
import copy
import itertools
import os
import re
import tempfile
import time

from gp2_clauses import Rules
from gp2_text import Fault, Text, parts_of, read_host, read_program, rules_of
from why_fault import as_file, explained, print_fault
from why_gp2 import Stop

MOST_FORMS = 6000  # so many forms are tried before single changes are taken back from the weakest form
MOST_SHOWN = 8
BEFORE_MINUS = ("(", ",", ":", "=", "-", "<", ">", "<=", ">=", "!=")  # behind these, a minus has one operand
BATCH = 100
SHARE = 0.6  # of the time, for the search of the smallest changes


def spaced(tokens):
    """The text of these tokens, as `gp2 fmt` spaces them."""
    out = ""
    for at, token in enumerate(tokens):
        before = tokens[at - 1] if at else None
        tight = not before or token.text in (")", ",", ";", "!", ":", ".", "}") or before.text in ("(", "{", ":", ".")
        if before and token.text == "(" and before.kind == "word" and before.text not in ("and", "or", "not", "where"):
            tight = True
        if before and before.text == "-" and (at == 1 or tokens[at - 2].text in BEFORE_MINUS):
            tight = True
        out += ("" if tight else " ") + token.text
    return out


class Item:
    """A node or an edge of the left side."""

    def __init__(self, tokens, part):
        self.kind, self.name = part.kind, part.name.text
        self.label = spaced(tokens[part.label.value.first:part.label.value.last + 1])
        self.uses = {it.name.text for it in parts_of(part.label.value) if it.kind == "variable"}
        self.mark = part.label.mark.text if part.label.mark else ""
        if part.kind == "node":
            self.root = part.root
        else:
            self.both, self.source, self.target = part.both, part.source.text, part.target.text

    def written(self):
        label = self.label + (f" # {self.mark}" if self.mark else "")
        if self.kind == "node":
            return f"({self.name}{'(R)' if self.root else ''}, {label})"
        return f"({self.name}{'(B)' if self.both else ''}, {self.source}, {self.target}, {label})"


class Part:
    """A part of the condition that has to be true whatever the others are."""

    def __init__(self, tokens, part):
        self.text = spaced(tokens[part.first:part.last + 1])
        self.tokens = tokens[part.first:part.last + 1]
        self.is_or = part.kind == "or"
        self.uses, self.nodes = set(), set()
        for it in parts_of(part):
            if it.kind in ("variable", "length"):
                self.uses.add(it.name.text)
            elif it.kind in ("indeg", "outdeg"):
                self.nodes.add(it.name.text)
            elif it.kind == "edge test":
                self.nodes |= {end.text for end in it.ends}


def conjuncts(part):
    if part is None:
        return []
    if part.kind == "and":
        return [it for inner in part.parts for it in conjuncts(inner)]
    if part.kind == "parentheses" and part.inner.kind in ("and", "parentheses"):
        return conjuncts(part.inner)
    return [part]


class Form:
    """What a rule asks of a graph: it is copied, and changed."""

    def __init__(self, tokens, rule):
        self.types = {name.text: kind for name, kind in rule.variables}
        self.nodes = [Item(tokens, it) for it in rule.left.nodes]
        self.edges = [Item(tokens, it) for it in rule.left.edges]
        self.kept = {it.text for it in rule.interface}
        self.parts = [Part(tokens, it) for it in conjuncts(rule.condition)]
        self.dropped = set()
        self.renamed = {}

    def item(self, name, kind):
        return next((it for it in (self.nodes if kind == "node" else self.edges) if it.name == name), None)

    def fresh(self, item):
        name = f"any_{item.kind}_{item.name}"
        while name in self.types:
            name += "_"
        self.types[name] = "list"
        item.label, item.uses = name, {name}

    def asked(self):
        """The parts of the condition that can be asked, and are."""
        bound = {name for it in self.nodes + self.edges for name in it.uses}
        there = {it.name for it in self.nodes} | set(self.renamed)
        return [
            at for at, it in enumerate(self.parts) if at not in self.dropped and it.uses <= bound and it.nodes <= there
        ]

    def written(self, name):
        types = "; ".join(f"{it}:{kind}" for it, kind in self.types.items())
        kept = [it for it in self.nodes if it.name in self.kept]
        parts = []
        for at in self.asked():
            part = self.parts[at]
            text = " ".join(
                self.renamed.get(it.text, it.text) if it.kind != "string" else it.text for it in part.tokens
            )
            parts.append(f"({text})" if part.is_or else text)
        where = " where " + " and ".join(parts) if parts else ""
        nodes, edges, right = (" ".join(it.written() for it in items) for items in (self.nodes, self.edges, kept))
        interface = ", ".join(it.name for it in kept)
        return f"{name}({types}) [ {nodes} | {edges} ] => [ {right} | ] interface = {{{interface}}}{where}\n"


class Change:
    """A change that makes a form weaker: how much it is, what it leaves out, what is said of it, and what it is
    about."""

    def __init__(self, weight, covers, says, apply, about=None):
        self.weight, self.covers, self.says, self.apply, self.about = weight, frozenset(covers), says, apply, about


def set_to(kind, name, **values):
    def apply(form):
        item = form.item(name, kind)
        if item:
            item.__dict__.update(values)
    return apply


class Changes:
    """All changes of a rule, lighter ones first."""

    def __init__(self, tokens, rule):
        self.tokens, self.rule, self.form = tokens, rule, Form(tokens, rule)
        self.made = []
        for make in (self.conditions, self.roots, self.marks, self.types, self.labels, self.directions, self.kept,
                     self.no_edges, self.same_nodes, self.no_nodes):
            make()

    def add(self, weight, covers, says, apply, about=None):
        change = Change(weight, covers, says, apply, about)
        form = copy.deepcopy(self.form)
        before = set(form.asked())
        apply(form)
        lost = before - set(form.asked()) - {it[1] for it in change.covers if it[0] == "condition"}
        if lost and weight < 100:
            change.covers |= {("condition", at) for at in lost}
            parts = " and ".join(f"`{self.form.parts[at].text}`" for at in sorted(lost))
            change.says += f", and the condition {parts} is left out"
            change.weight += len(lost)
        self.made.append(change)

    def only_in(self, items):
        """The types that are asked in these items alone."""
        others = {name for it in self.form.nodes + self.form.edges if it not in items for name in it.uses}
        return {("type", name) for it in items for name in it.uses - others}

    def conditions(self):
        for at, part in enumerate(self.form.parts):
            self.add(
                1,
                {("condition", at)},
                f"the condition `{part.text}` is left out",
                lambda form, at=at: form.dropped.add(at),
            )

    def roots(self):
        for it in self.form.nodes:
            says = f"node {it.name} need not be a root" if it.root else f"node {it.name} may be a root"
            self.add(1, {("root", it.name)}, says, set_to("node", it.name, root=not it.root), ("node", it.name))

    def marks(self):
        for it in self.form.nodes + self.form.edges:
            if it.mark != "any":
                says = (
                    f"{it.kind} {it.name} need not be {it.mark}" if it.mark else f"{it.kind} {it.name} may have a mark"
                )
                self.add(
                    1, {("mark", it.kind, it.name)}, says, set_to(it.kind, it.name, mark="any"), (it.kind, it.name)
                )

    def types(self):
        used = {name for it in self.form.nodes + self.form.edges for name in it.uses}
        for name, kind in self.form.types.items():
            for wider in ("string", "atom", "list"):
                if name not in used or kind == "list" or wider == kind or (wider == "string" and kind != "char"):
                    continue
                broken = self.broken_by(name, wider)
                if broken is None:
                    continue
                about = next((it.kind, it.name) for it in self.form.nodes + self.form.edges if name in it.uses)

                def apply(form, name=name, wider=wider, broken=broken):
                    if name in form.types:
                        form.types[name] = wider
                    form.dropped |= broken
                said = {"list": "any list", "atom": "any atom", "string": "any string"}[wider]
                more = {("wider", name)} if wider == "list" else set()
                self.add(
                    1, {("type", name)} | more, f"variable {name}, now of type {kind}, may be {said}", apply, about
                )

    def broken_by(self, name, wider):
        """The parts of the condition that this type does not allow; None if a label does not."""
        form = copy.deepcopy(self.form)
        form.types[name] = wider
        form.dropped = set(range(len(form.parts)))
        if not is_allowed(form):
            return None
        broken = set()
        for at in range(len(form.parts)):
            form.dropped = set(range(len(form.parts))) - {at}
            if not is_allowed(form):
                broken.add(at)
        return broken

    def labels(self):
        for it in self.form.nodes + self.form.edges:
            if (
                it.uses
                and re.fullmatch(r"\w+", it.label)
                and self.form.types.get(it.label) == "list"
                and self.only_in([it])
            ):
                continue  # any list is asked for already

            def apply(form, kind=it.kind, name=it.name):
                item = form.item(name, kind)
                if item:
                    form.fresh(item)
            types = self.only_in([it])
            covers = {("label", it.kind, it.name)} | types | {("wider", name) for _, name in types}
            self.add(1, covers, f"the label of {it.kind} {it.name} need not be `{it.label}`", apply, (it.kind, it.name))

    def directions(self):
        for it in self.form.edges:
            if not it.both and it.source != it.target:
                self.add(1, {("direction", it.name)}, f"edge {it.name} may go in either direction",
                         set_to("edge", it.name, both=True), ("edge", it.name))

    def kept(self):
        for it in self.form.nodes:
            if it.name not in self.form.kept:
                self.add(
                    1,
                    {("kept", it.name)},
                    f"node {it.name} is not deleted",
                    lambda form, name=it.name: form.kept.add(name),
                    ("rest", it.name),
                )

    def of_edge(self, it):
        return {("edge", it.name), ("direction", it.name), ("mark", "edge", it.name), ("label", "edge", it.name)}

    def without_edge(self, name):
        def apply(form):
            form.edges = [it for it in form.edges if it.name != name]
        return apply

    def no_edges(self):
        for it in self.form.edges:
            self.add(
                2, self.of_edge(it) | self.only_in([it]), f"edge {it.name} is left out", self.without_edge(it.name)
            )

    def same_nodes(self):
        for one, other in itertools.combinations(self.form.nodes, 2):
            def apply(form, one=one.name, other=other.name):
                if not form.item(one, "node") or not form.item(other, "node"):
                    return
                form.nodes = [it for it in form.nodes if it.name != other]
                form.renamed[other] = one
                for it in form.edges:
                    it.source, it.target = (one if end == other else end for end in (it.source, it.target))

            covers = {
                ("same", one.name, other.name),
                ("root", other.name),
                ("mark", "node", other.name),
                ("label", "node", other.name),
            }
            self.add(
                2,
                covers,
                f"nodes {one.name} and {other.name} may be the same node, with the label and mark of {one.name}",
                apply,
                ("node", one.name),
            )

    def no_nodes(self):
        for it in self.form.nodes:
            edges = [edge for edge in self.form.edges if it.name in (edge.source, edge.target)]
            covers = {
                ("node", it.name),
                ("root", it.name),
                ("mark", "node", it.name),
                ("label", "node", it.name),
                ("kept", it.name),
            }
            covers = covers.union(*(self.of_edge(edge) for edge in edges)) | self.only_in([it, *edges])

            def apply(form, name=it.name):
                form.nodes = [node for node in form.nodes if node.name != name]
                form.edges = [edge for edge in form.edges if name not in (edge.source, edge.target)]

            more = (
                f" with edge{'s' if len(edges) > 1 else ''} " + ", ".join(edge.name for edge in edges) if edges else ""
            )
            if len(self.form.nodes) > 1:
                self.add(5, covers, f"node {it.name}{more} is left out", apply)


def is_allowed(form):
    try:
        tokens, _, tree = read_program(form.written("r"))
    except Fault:
        return False
    return not any(True for rule in rules_of(tree.declarations) for _ in Rules(tokens, rule).faults())


class Asker:
    """Asks `gp2` which forms match: many in one program, each as the condition of an `if`."""

    def __init__(self, gp2, host_file, room, seconds):
        self.gp2, self.host_file, self.room = gp2, host_file, room
        self.begin, self.seconds = time.monotonic(), seconds
        self.tried, self.is_late, self.faulty = 0, False, {}
        self.grant(1)

    def grant(self, share):
        """From here on, the search may last until this share of the time is over."""
        self.end, self.is_late = self.begin + share * self.seconds, False

    def ask(self, texts):
        """For each text of a rule `w`, its match as the journal has it, or None."""
        found = [None] * len(texts)
        for begin in range(0, len(texts), BATCH):
            if not self.is_late:
                self.ask_some(texts, list(range(begin, min(begin + BATCH, len(texts)))), found)
        return found

    def ask_some(self, texts, numbers, found):
        while numbers and not self.is_late:
            file = os.path.join(self.room, "forms")
            with open(file, "w", encoding="latin-1") as out:
                out.write("Main = " + "; ".join(f"if w{at} then skip" for at in numbers) + "\n")
                out.writelines(re.sub(r"^w\b", f"w{at}", texts[at]) for at in numbers)
            left = self.end - time.monotonic()
            status, printed, said = self.gp2.run(["run", file, self.host_file, "--journal"], seconds=max(left, 0.1))
            if status is None:
                self.is_late = True
                return
            named = re.match(r"(?:program: rule|number) w(\d+)\b", said[-1]) if said else None
            if status in (3, 6) and named:
                numbers.remove(int(named[1])) # what cannot be asked, or has a match whose condition has no value
                if status == 6:
                    self.faulty[int(named[1])] = said[-1]
                continue
            if status not in (0, 1):
                raise Stop(said[-1] if said else f"gp2 ended with status {status}", status)
            self.tried += len(numbers)
            for rule, nodes, edges in re.findall(r"^step (\d+) nodes([ 0-9]*) edges([ 0-9~]*)$", printed, re.M):
                found[numbers[int(rule)]] = (nodes.split(), edges.split())
            return


def changed(changes, chosen):
    form = copy.deepcopy(changes.form)
    for change in chosen:
        change.apply(form)
    return form


def is_redundant(chosen):
    """Whether one change leaves out nothing that the others do not."""
    others = [[other.covers for other in chosen if other is not it] for it in chosen]
    return len(chosen) > 1 and any(it.covers <= frozenset().union(*rest) for it, rest in zip(chosen, others))


def of_weight(changes, weight, least=0):
    """Sets of changes whose weights make this sum."""
    for at in range(least, len(changes)):
        rest = weight - changes[at].weight
        if rest == 0:
            yield [changes[at]]
        elif rest > 0:
            for more in of_weight(changes, rest, at + 1):
                yield [changes[at], *more]


def smallest(changes, asker):
    """The lightest sets of changes with which the rule matches, each with its match."""
    spent = 0
    for weight in range(1, 8):
        sets = [it for it in itertools.islice(of_weight(changes.made, weight), MOST_FORMS + 1) if not is_redundant(it)]
        spent += len(sets)
        if spent > MOST_FORMS or asker.is_late:
            return []
        matches = asker.ask([changed(changes, it).written("w") for it in sets])
        found = [(chosen, match) for chosen, match in zip(sets, matches) if match]
        covers = [frozenset().union(*(it.covers for it in chosen)) for chosen, _ in found]
        found = [it for it, own in zip(found, covers) if not any(other < own for other in covers)]
        if found:
            return found
    return []


def weakest(changes, host):
    """All changes but those that take a node away or make two of one; of roots as many as the host has."""
    roots = sum(it.root for it in host.graph.nodes)
    others = len(host.graph.nodes) - roots
    left = [it.root for it in changes.form.nodes]
    need = {True: max(0, sum(left) - roots), False: max(0, len(left) - sum(left) - others)}
    chosen = []
    for change in changes.made:
        kinds = {it[0] for it in change.covers}
        if kinds == {"root"}:
            is_root = changes.form.item(change.about[1], "node").root
            if need[is_root] == 0:
                continue
            need[is_root] -= 1
        if not kinds & {"same", "node"}:
            chosen.append(change)
    return chosen


def taken_back(changes, asker, host):
    """From the weakest form, changes are taken back one after another as long as there is a match."""
    chosen = weakest(changes, host)
    match = asker.ask([changed(changes, chosen).written("w")])[0]
    is_done = not match
    while not is_done:
        is_done = True
        for change in sorted(chosen, key=lambda it: -it.weight):
            fewer = [it for it in chosen if it is not change]
            again = asker.ask([changed(changes, fewer).written("w")])[0]
            if again:
                chosen, match, is_done = fewer, again, False
            if asker.is_late:
                return []
    return [(chosen, match)] if match else []


# ---- the host, and what is printed


class Host:
    def __init__(self, name, data, is_printed):
        self.name, self.is_printed = name, is_printed
        self.tokens, self.graph = read_host(data.decode("latin-1"))

    def sizes(self):
        counts = (("node", len(self.graph.nodes)), ("edge", len(self.graph.edges)))
        return ", ".join(f"{count} {kind}{'' if count == 1 else 's'}" for kind, count in counts)

    def shown(self, item):
        label = spaced(self.tokens[item.label.first:item.label.last + 1])
        if item.kind == "node":
            return f"({item.name.text}{'(R)' if item.root else ''}, {label})"
        return f"({item.name.text}, {item.source.text}, {item.target.text}, {label})"

    def number(self, kind, index):
        """The number in the journal. Of a graph that was printed, the names of nodes are their numbers."""
        if self.is_printed and kind == "node":
            return self.graph.nodes[int(index)].name.text[1:]
        return index

    def at(self, match):
        nodes, edges = match
        said = "nodes " + " ".join(self.number("node", it) for it in nodes) if nodes else "no node"
        if not edges:
            return said
        if self.is_printed:
            items = [self.graph.edges[int(it.rstrip("~"))] for it in edges]
            return f"{said} and edges " + " ".join(f"{it.source.text}-{it.target.text}" for it in items)
        return f"{said} edges {' '.join(edges)}"

    def rest(self, index, edges):
        """The edges at a node that are not matched."""
        name = self.graph.nodes[index].name.text
        matched = {int(it.rstrip("~")) for it in edges}
        return [
            it
            for at, it in enumerate(self.graph.edges)
            if at not in matched and name in (it.source.text, it.target.text)
        ]

    def told(self, form, match, about):
        """What the host has where the change is about."""
        kind, name = about
        items = form.edges if kind == "edge" else form.nodes
        place = next((at for at, it in enumerate(items) if it.name == name), None)
        if place is None:
            return []
        index = int(match[1 if kind == "edge" else 0][place].rstrip("~"))
        item = (self.graph.edges if kind == "edge" else self.graph.nodes)[index]
        if kind == "rest":
            rest = self.rest(index, match[1])
            more = f" and {len(rest) - 2} more" if len(rest) > 2 else ""
            said = ", ".join(self.shown(it) for it in rest[:2])
            return [f"{name} is {self.shown(item)}, which has edges that the rule does not match: {said}{more}"]
        return [f"{name} is {self.shown(item)}"]


def print_sets(host, changes, found):
    by_what = {}
    for chosen, match in found:
        by_what.setdefault(tuple(it.says for it in chosen), (chosen, match))
    for chosen, match in list(by_what.values())[:MOST_SHOWN]:
        if len(chosen) > 3:
            print("\n    ".join([f"- matches at {host.at(match)} if", *(it.says for it in chosen)]) + ", where")
        else:
            print(f"- matches at {host.at(match)} if " + ", and ".join(it.says for it in chosen))
        lines = []
        for change in chosen:
            if change.about:
                lines += host.told(changed(changes, chosen), match, change.about)
        for line in dict.fromkeys(
            it for it in lines if not any(other != it and other.startswith(it) for other in lines)
        ):
            print(f"    {line}")
    if len(by_what) > MOST_SHOWN:
        print(f"- and {len(by_what) - MOST_SHOWN} more such changes")


def rule_named(rules, word, text, tokens):
    named = [at for at, it in enumerate(rules) if it.name.text == word]
    if len(named) == 1:
        return named[0]
    if word.isdigit() and int(word) < len(rules):
        return int(word)
    if not named:
        raise Stop(f"there is no rule `{word}`; the rules are {', '.join(it.name.text for it in rules) or 'none'}", 2)
    raise Stop(f"{len(named)} rules have the name `{word}`; write the number of one: "
               + ", ".join(f"{at} ({text.at(rules[at].name.start)})" for at in named), 2)


def graph_at(gp2, options, files, room):
    """The graph after so many items of the run, as a file."""
    program, host = files
    words = [program, host]
    more = [*options["bound"], *options["seed"]]
    count = options["at"]
    if count == "end":
        status, printed, said = gp2.run(["run", *words, "--journal", *more])
        if status not in (0, 1):
            raise Stop(
                (said[-1] if said else f"gp2 ended with status {status}") + ": such a run has no journal", status
            )
        count = printed[: printed.index("\nend\n") + 1].count("\n") - 1
    script = os.path.join(room, "script")
    with open(script, "w") as out:
        out.write("forward\n" * int(count) + "show\n")
    status, printed, said = gp2.run(["step", *words, script, *more])
    if status != 0:
        raise Stop(said[-1] if said else f"gp2 ended with status {status}", status)
    begin = 0 if printed.startswith("[\n") else printed.index("\n[\n") + 1
    if "end" in printed[:begin].splitlines():
        raise Stop(f"the run has only {printed[:begin].splitlines().index('end')} items", 2)
    file = os.path.join(room, "graph")
    with open(file, "w", encoding="latin-1") as out:
        out.write(printed[begin:])
    return file, f"the graph after {count} item{'s' if int(count) != 1 else ''} of the run on "


def read_both(gp2, program, program_file, host_file, words):
    """The program's tree; a program or host that `gp2` refuses is told."""
    status, _, said = gp2.run(["check", program_file, host_file, os.devnull, os.devnull])
    if status in (3, 4):
        kind = "program" if status == 3 else "host"
        text = program
        if status == 4:
            with open(host_file, "rb") as file:
                text = Text(words[1], file.read())
        print_fault(*explained(text, said[-1], kind == "host"), said[-1], False)
        raise SystemExit(status)
    if status != 10:
        raise Stop(said[-1] if said else f"gp2 ended with status {status}", status)
    return read_program(program.text)


def list_rules(rules, text, tokens, asker, host, where):
    """Each rule, and whether it matches."""
    matches = asker.ask([Form(tokens, it).written("w") for it in rules])
    print(f"On {where}{host.name} ({host.sizes()}):")
    for at, (rule, match) in enumerate(zip(rules, matches)):
        said = "number fault in its condition" if at in asker.faulty else "no match"
        said = f"matches at {host.at(match)}" if match else said
        print(f"- {rule.name.text} ({text.at(rule.name.start)}): {said}")
    if asker.is_late:
        print("The time is over; not every rule was tried (`--seconds N`).")
    return 0 if any(matches) else 1


def match(gp2, options, words):
    """The command: status 0 if the rule matches, and 1 if it does not."""
    with tempfile.TemporaryDirectory() as room:
        data, program_file = as_file(words[0], room, "program")
        host_data, host_file = as_file(words[1], room, "host")
        text, where = Text(words[0], data), ""
        tokens, _, tree = read_both(gp2, text, program_file, host_file, words)
        rules = list(rules_of(tree.declarations))
        number = rule_named(rules, words[2], text, tokens) if len(words) > 2 else None
        if options["at"] is not None:
            host_file, where = graph_at(gp2, options, (program_file, host_file), room)
            with open(host_file, "rb") as file:
                host_data = file.read()
        host = Host(words[1], host_data, options["at"] is not None)
        asker = Asker(gp2, host_file, room, options["seconds"])
        if number is None:
            return list_rules(rules, text, tokens, asker, host, where)
        return tell_match(text, tokens, rules[number], host, asker, where)


def tell_match(text, tokens, rule, host, asker, where):
    name, place = rule.name.text, text.at(rule.name.start)
    own = "w " + " ".join(it.text for it in tokens[rule.first + 1:rule.last + 1]) + "\n"
    found = asker.ask([own])[0]
    said = f"on {where}{host.name} ({host.sizes()})"
    if found:
        print(f"{place}: rule {name} matches {said}: at {host.at(found)}")
        print(
            "If a run makes no step by it, it is not called, or only when the graph is another: `--at K` "
            "asks about the graph "
            "after K items of the run, and `--at end` about its end."
        )
        return 0
    if asker.faulty:
        print(f"{place}: rule {name} has a match {said}, but a number has no value there: {asker.faulty[0].split()[2]}")
        return 0
    if asker.is_late:
        raise Stop(f"the search for a match took longer than the time that it was given (`--seconds N`)")
    print(f"{place}: rule {name} has no match {said}.")
    changes = Changes(tokens, rule)
    asker.grant(SHARE)
    found = smallest(changes, asker)
    least = bool(found)
    if not found:
        asker.grant(1)
        found = taken_back(changes, asker, host)
    if found:
        many = len({tuple(it.says for it in chosen) for chosen, _ in found}) > 1
        print(("Any one of these is enough for a match:" if many else "This is enough for a match:") if least
              else "All of these together are enough for a match, and without one of them there is none:")
        print_sets(host, changes, found)
    elif asker.is_late:
        print(f"{asker.tried} weaker forms of the rule have no match either; then the time was over (`--seconds N`).")
    else:
        nodes = len(rule.left.nodes)
        print(
            f"The left side has {nodes} nodes, which match different nodes, and this graph has {len(host.graph.nodes)}."
            if nodes > len(host.graph.nodes)
            else f"{asker.tried} weaker forms of the rule have no match either."
        )
    return 1
