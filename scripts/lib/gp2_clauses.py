"""Where a program that is one by its syntax breaks a clause: names, calls, `break`, and the clauses of rules.

Each function answers faults with their places and, where one is known, a sentence for the reader. `gp2` has said which
fault there is; `find` looks for just that one."""
import difflib

from gp2_text import Fault, Part, parts_of, procedures_of, rules_of

NODE_MARKS = ("red", "green", "blue", "grey", "any")
EDGE_MARKS = ("red", "green", "blue", "dashed", "any")
MOST_NODES, MOST_EDGES, MOST_CALLS = 32, 64, 64


def near(name, names):
    """A sentence with the names that are nearly this one."""
    names = sorted(set(names) - {name})
    close = [it for it in names if it.lower() == name.lower()] or difflib.get_close_matches(name, names, 2)
    return f"Is `{'` or `'.join(close)}` meant?" if close else ""


def either(words):
    words = [f"`{it}`" for it in words]
    return words[0] if len(words) == 1 else ", ".join(words[:-1]) + " or " + words[-1]


def is_numeral(part):
    """Whether it is a number with signs and parentheses around it."""
    while part.kind in ("minus", "parentheses"):
        part = part.operand if part.kind == "minus" else part.inner
    return part.kind == "numeral"


class Rules:
    """The faults of one rule, clause by clause in the order in which `gp2` asks."""

    def __init__(self, tokens, rule):
        self.tokens, self.rule = tokens, rule
        self.types = {}
        for name, kind in rule.variables:
            self.types.setdefault(name.text, kind)
        self.left = {it.name.text for it in rule.left.nodes}
        self.right = {it.name.text for it in rule.right.nodes}
        self.kept = {it.text for it in rule.interface}

    def faults(self):
        for clause in (self.too_large, self.twice_declared, self.unknown_node, self.bad_interface, self.unbound,
                       self.bad_type, self.not_simple, self.bad_mark, self.bad_bidi):
            yield from clause()

    def of_part(self, fault, part, told="", hint=""):
        return Fault(fault, self.tokens[part.first].start, self.tokens[part.last].end, told, hint=hint)

    def of_token(self, fault, token, hint=""):
        return Fault(fault, token.start, token.end, token.text, hint=hint)

    def sides(self):
        return (("left", self.rule.left), ("right", self.rule.right))

    def labels(self, side):
        return [it.label for it in side.nodes + side.edges]

    def values(self):
        """The parts of all labels and of the condition, in the order of the text."""
        for _, side in self.sides():
            for label in self.labels(side):
                yield from parts_of(label.value)
        yield from parts_of(self.rule.condition)

    # ---- the clauses

    def too_large(self):
        for said, side in self.sides():
            for items, most, kind in ((side.nodes, MOST_NODES, "nodes"), (side.edges, MOST_EDGES, "edges")):
                if len(items) > most:
                    hint = f"The {said} side has {len(items)} {kind}, and at most {most} are allowed."
                    yield self.of_part("TooLarge", items[most], hint=hint)

    def twice_declared(self):
        rule = self.rule
        lists = [("variable", [name for name, _ in rule.variables])]
        for said, side in self.sides():
            lists += [
                (f"{said} node", [it.name for it in side.nodes]),
                (f"{said} edge", [it.name for it in side.edges]),
            ]
        for kind, names in lists + [("name in the interface", rule.interface)]:
            seen = set()
            for name in names:
                if name.text in seen:
                    yield self.of_token(
                        "TwiceDeclared", name, f"There is another {kind} `{name.text}` before this one."
                    )
                seen.add(name.text)

    def unknown_node(self):
        for said, side in self.sides():
            there = {it.name.text for it in side.nodes}
            for edge in side.edges:
                for end in (edge.source, edge.target):
                    if end.text not in there:
                        yield self.of_token("UnknownNode", end, f"The {said} side has no node `{end.text}`, which this "
                                            f"edge begins or ends at. {near(end.text, there)}")
        for part in self.values():
            for name in (
                part.ends if part.kind == "edge test" else [part.name] if part.kind in ("indeg", "outdeg") else []
            ):
                if name.text not in self.left:
                    where = "is a node of the right side only" if name.text in self.right else "is no node of this rule"
                    yield self.of_token(
                        "UnknownNode",
                        name,
                        f"`edge`, `indeg` and `outdeg` ask about nodes of the left "
                        f"side, and `{name.text}` {where}. {near(name.text, self.left)}",
                    )

    def bad_interface(self):
        edges = {it.name.text for _, side in self.sides() for it in side.edges}
        for name in self.rule.interface:
            on_left, on_right = name.text in self.left, name.text in self.right
            if on_left and on_right:
                continue
            if on_left or on_right:
                hint = (f"`{name.text}` is a node of the {'left' if on_left else 'right'} side only. The interface has "
                        "the nodes that stay, so they stand on both sides.")
            elif name.text in edges:
                hint = (
                    f"`{name.text}` is an edge. The interface has nodes only; an edge stays by its name and its ends."
                )
            else:
                hint = f"Neither side has a node `{name.text}`. {near(name.text, self.left & self.right)}"
            yield self.of_token("BadInterface", name, hint)

    def used(self):
        """The variables where they are used, each with the side of its label."""
        for said, side in (("left", self.rule.left), ("right", self.rule.right), ("condition", self.rule.condition)):
            for part in parts_of(side):
                if part.kind in ("variable", "length"):
                    yield said, part.name

    def unbound(self):
        used = list(self.used())
        on_left = {name.text for said, name in used if said == "left"}
        for said, name in used:
            declared = name.text in self.types
            if declared and (said == "left" or name.text in on_left):
                continue
            if declared:
                hint = (
                    f"`{name.text}` is declared, but stands in no label of the left side, so a match gives it no value."
                )
            else:
                hint = f"The variable `{name.text}` is not declared. {near(name.text, self.types)}"
                if name.text in self.left | self.right:
                    hint = (f"`{name.text}` is a node, and here a value is wanted: a variable of its label, or "
                            f"`indeg({name.text})` or `outdeg({name.text})`.")
                elif not near(name.text, self.types):
                    hint += f"Write it into the parentheses behind the rule's name, as in `{name.text}:list`."
            yield self.of_token("Unbound", name, hint)

    def type_of(self, value):
        if value.kind == "parentheses":
            return self.type_of(value.inner)
        if value.kind == "string":
            return "char" if len(value.token.text) == 3 else "string"
        if value.kind == "variable":
            return self.types.get(value.name.text, "list")
        return {"list": "list", "empty": "list", "string chain": "string"}.get(value.kind, "int")

    def said_type(self, value):
        kind = self.type_of(value)
        if value.kind == "variable":
            more = ": declare it as `int`" if kind in ("list", "atom") else ""
            return f"the variable `{value.name.text}` is of type {kind}", more
        return f"this is of type {kind}", ""

    def bad_type(self):
        for part in self.values():
            numbers, strings = [], []
            if part.kind in ("sum", "product"):
                numbers = part.parts
            elif part.kind == "minus":
                numbers = [part.operand]
            elif part.kind == "comparison" and part.sign.text not in ("=", "!="):
                numbers = [part.left, part.right]
            elif part.kind == "string chain":
                strings = part.parts
            for value in numbers:
                if self.type_of(value) != "int":
                    said, more = self.said_type(value)
                    yield self.of_part(
                        "BadType", value, hint=f"Arithmetic and `< <= > >=` take integers, and {said}{more}."
                    )
            for value in strings:
                if self.type_of(value) not in ("string", "char"):
                    said, _ = self.said_type(value)
                    yield self.of_part(
                        "BadType", value, hint=f"`.` joins strings, and {said}. `:` joins the atoms of a list."
                    )

    def not_simple(self):
        computed = {"sum": "arithmetic", "product": "arithmetic", "minus": "arithmetic", "indeg": "a degree",
                    "outdeg": "a degree", "length": "a length"}
        for label in self.labels(self.rule.left):
            parts = list(parts_of(label.value))
            for part in parts:
                if part.kind in computed and not is_numeral(part):
                    said = computed[part.kind].split()[-1]
                    yield self.of_part("NotSimple", part, hint=f"A label of the left side has no {said}: "
                                       "take a variable there, and ask for its value behind `where`.")
            lists = [it for it in parts if it.kind == "variable" and self.types.get(it.name.text) == "list"]
            if len(lists) > 1:
                yield self.of_part(
                    "NotSimple",
                    lists[1],
                    hint="A label of the left side has at most one list variable, since "
                    "there would be several ways to split the list.",
                )
            for chain in parts:
                used = [it for it in parts_of(chain) if it.kind == "variable"]
                strings = [it for it in used if self.types.get(it.name.text) == "string"]
                if chain.kind == "string chain" and len(strings) > 1:
                    hint = (
                        "A string of the left side has at most one string variable, since there would be several ways "
                        "to "
                        "split it; a char variable is one character."
                    )
                    yield self.of_part("NotSimple", strings[1], hint=hint)

    def bad_mark(self):
        rule = self.rule
        any_nodes = {it.name.text for it in rule.left.nodes if it.label.mark and it.label.mark.text == "any"}
        any_edges = {it.name.text for it in rule.left.edges if it.label.mark and it.label.mark.text == "any"}
        for said, side in self.sides():
            for item in side.nodes + side.edges:
                mark, marks = item.label.mark, NODE_MARKS if item.kind == "node" else EDGE_MARKS
                if not mark:
                    continue
                if mark.text not in marks:
                    yield self.of_token("BadMark", mark, self.mark_hint(mark.text, item.kind, marks))
                elif mark.text == "any" and said == "right":
                    name, there = item.name.text, any_nodes & self.kept if item.kind == "node" else any_edges
                    if name not in there:
                        kept = ", and is in the interface" if item.kind == "node" else ""
                        yield self.of_token(
                            "BadMark",
                            mark,
                            f"`any` on the right keeps the mark that was found, so it needs a "
                            f"left {item.kind} `{name}` that has `# any`{kept}.",
                        )
        for part in parts_of(rule.condition):
            if part.kind == "edge test" and part.label and part.label.mark and part.label.mark.text not in EDGE_MARKS:
                yield self.of_token(
                    "BadMark", part.label.mark, self.mark_hint(part.label.mark.text, "edge", EDGE_MARKS)
                )

    def mark_hint(self, mark, kind, marks):
        if mark in NODE_MARKS + EDGE_MARKS:
            other = "edges" if kind == "node" else "nodes"
            return f"`{mark}` is a mark of {other} only; {kind}s may be {either(marks[:-1])}."
        meant = "Is `grey` meant?" if mark == "gray" and kind == "node" else near(mark, marks)
        return f"The marks of {kind}s are {either(marks)}. {meant}"

    def bad_bidi(self):
        left = {it.name.text: it for it in self.rule.left.edges}
        for edge in self.rule.right.edges:
            if not edge.both:
                continue
            name, other = edge.name.text, left.get(edge.name.text)
            if not other:
                hint = f"The left side has no edge `{name}`."
            elif not other.both:
                hint = f"The left edge `{name}` has no `(B)`."
            elif {edge.source.text, edge.target.text} == {other.source.text, other.target.text}:
                continue
            else:
                hint = f"The left edge `{name}` is between `{other.source.text}` and `{other.target.text}`."
            yield self.of_token(
                "BadBidi",
                edge.name,
                f"{hint} A `(B)` edge of the right side keeps the direction that was "
                "found, so the left side has a `(B)` edge of this name between the same two nodes.",
            )


def rule_fault(tokens, tree, rule_name, fault, told):
    """The place of this fault in the first rule of this name that has it; or the rule's name, and that it is all that
    is known."""
    named = [it for it in rules_of(tree.declarations) if it.name.text == rule_name]
    for rule in named:
        for found in Rules(tokens, rule).faults():
            if found.name == fault and (not told or found.told == told):
                return found
    if named:
        return Fault(fault, named[0].name.start, named[0].name.end, told, hint="")
    return None


# ---- names, calls and `break`


class Scope:
    def __init__(self, declarations, above):
        self.above, self.names = above, {}
        for it in declarations:
            self.names.setdefault(it.name.text, it)

    def meant(self, name):
        scope = self
        while scope:
            if name in scope.names:
                return scope.names[name]
            scope = scope.above
        return None

    def visible(self):
        return set(self.names) | (self.above.visible() if self.above else set())


def calls_of(tree):
    """Each call, in the order of the text: the token, the scope, and the procedure that it stands in."""
    def walk(declarations, above):
        scope = Scope(declarations, above)
        for it in declarations:
            if it.kind == "procedure":
                yield from walk(it.local, scope)
                inner = Scope(it.local, scope)
                for part in parts_of(it.body):
                    for token in part.names if part.kind in ("call", "procedure call") else []:
                        yield token, inner, it
    yield from walk(tree.declarations, None)


def of_name(fault, token, hint=""):
    return Fault(fault, token.start, token.end, token.text, hint=hint)


def no_main(tokens, tree, told):
    everywhere = list(procedures_of(tree.declarations))
    local = [it for it in everywhere if it.name.text == "Main"]
    if local:
        hint = "`Main` stands inside a procedure here; the program runs the one outside of all."
        return of_name("NoMain", local[0].name, hint)
    tops = [it.name for it in tree.declarations if it.kind == "procedure"]
    close = difflib.get_close_matches("Main", [it.text for it in tops], 1)
    if close:
        token = next(it for it in tops if it.text == close[0])
        return of_name("NoMain", token, f"A program runs the procedure `Main`; here is `{token.text}`.")
    hint = "A program runs the procedure `Main`, as in `Main = first; second!`."
    return of_name("NoMain", tops[0] if tops else tokens[0], hint)


def two_mains(tokens, tree, told):
    mains = [it for it in procedures_of(tree.declarations) if it.name.text == "Main"]
    return of_name("TwoMains", mains[1].name, "There is another `Main` before this one.") if len(mains) > 1 else None


def two_rules(tokens, tree, told):
    for declarations in [tree.declarations] + [it.local for it in procedures_of(tree.declarations)]:
        same = [it.name for it in declarations if it.name.text == told]
        if len(same) > 1:
            return of_name("TwoRules", same[1], f"There is another declaration of `{told}` before this one.")
    return None


def unknown(tokens, tree, told):
    for token, scope, _ in calls_of(tree):
        if token.text == told and (told == "Main" or not scope.meant(told)):
            names = scope.visible() - {"Main"}
            everywhere = [*rules_of(tree.declarations), *procedures_of(tree.declarations)]
            elsewhere = [it for it in everywhere if it.name.text == told]
            if told == "Main":
                hint = "`Main` cannot be called; a loop over all of it is written `Main = (..)!`."
            elif elsewhere:
                hint = f"`{told}` is declared inside a procedure, and visible only there."
            else:
                hint = f"No rule and no procedure `{told}` is declared. {near(told, names)}"
                if told[0].isupper() and told[0].lower() + told[1:] in names:
                    hint = ("A name that begins with an upper-case letter is one of a procedure. "
                            f"Is the rule `{told[0].lower() + told[1:]}` meant?")
            return of_name("Unknown", token, hint)
    return None


def call_graph(tree):
    """Each procedure (its Part) with those that its body calls."""
    called = {it: [] for it in procedures_of(tree.declarations)}
    for token, scope, procedure in calls_of(tree):
        meant = scope.meant(token.text)
        if meant and meant.kind == "procedure":
            called[procedure].append(meant)
    return called


def recursive(tokens, tree, told):
    called = call_graph(tree)
    for start in called:
        if start.name.text != told:
            continue
        paths, seen = [[start]], set()
        while paths:
            path = paths.pop(0)
            for it in called[path[-1]]:
                if it is start:
                    words = " calls ".join(f"`{step.name.text}`" for step in path + [start])
                    return of_name("Recursive", start.name, f"{words}. A procedure may not call itself; repeat by `!`.")
                if it not in seen:
                    seen.add(it)
                    paths.append(path + [it])
    return None


def deep_calls(tokens, tree, told):
    for it in procedures_of(tree.declarations):
        if it.name.text == told:
            hint = f"A chain of more than {MOST_CALLS} procedures, each calling the next, begins here."
            return of_name("DeepCalls", it.name, hint)
    return None


def break_in(part, meant, calls=0):
    """A part that may break out of `part`: the `break`, or the call of a procedure that may."""
    if part.kind == "loop":
        return None
    if part.kind == "break":
        return part
    if part.kind == "procedure call":
        procedure = meant.get(part.names[0].start)
        return part if procedure and calls < MOST_CALLS and break_in(procedure.body, meant, calls + 1) else None
    for it in part.__dict__.values():
        for inner in it if isinstance(it, list) else [it]:
            if isinstance(inner, Part):
                found = break_in(inner, meant, calls)
                if found:
                    return found
    return None


def stray_break(tokens, tree, told):
    meant = {token.start: scope.meant(token.text) for token, scope, _ in calls_of(tree)}
    meant = {at: it for at, it in meant.items() if it and it.kind == "procedure"}
    found = []
    for procedure in procedures_of(tree.declarations):
        if procedure.name.text == "Main":
            found.append((break_in(procedure.body, meant), "It stands in no loop."))
        for part in parts_of(procedure.body):
            if part.kind in ("if", "try"):
                why = f"The condition of `{part.kind}` may not leave the loop around it."
                found.append((break_in(part.condition, meant), why))
    found = [it for it in found if it[0]]
    if not found:
        return None
    stray, why = min(found, key=lambda it: it[0].first)
    said = "" if stray.kind == "break" else f"`{stray.names[0].text}` may break. "
    return Fault("StrayBreak", tokens[stray.first].start, tokens[stray.last].end, hint=f"{said}{why}")


BY_NAME = {"NoMain": no_main, "TwoMains": two_mains, "TwoRules": two_rules, "Unknown": unknown, "Recursive": recursive,
           "DeepCalls": deep_calls, "StrayBreak": stray_break}
