"""`why bound`: which loop spends the bound of a run.

A run that reaches its bound has no journal. So the program is run again with a node more, which counts turns: each
loop `P!` becomes `(why_turn_K; P)!`, where `why_turn_K` is a rule that takes one from the label of that node, and has
no match at 0. No rule of the program matches the node, by its mark and its label. So the loops end after so many
turns, and there is a journal, which tells by the rule `why_turn_K` which loop each turn is of. What it shows up to
the first loop that ends so is the beginning of a run that the rules allow: the one of `gp2 run`, unless the node more
changed which match was found."""
import os
import re
import tempfile
from collections import Counter

from gp2_text import Text, parts_of, procedures_of, read_host, rules_of
from gp2_clauses import NODE_MARKS, calls_of
from why_fault import as_file
from why_gp2 import Stop
from why_match import read_both, spaced

DEFAULT = 1000000
LAST = 20
ROUNDS = 24


def counter_of(rules):
    """The root, the mark and the label of a node that no rule matches; or None."""
    labels = [(it.root, it.label.mark.text if it.label.mark else "", it.label.value, rule)
              for rule in rules for it in rule.left.nodes]
    longest = 0
    taken = set()
    for root, mark, value, rule in labels:
        lists = {name.text for name, kind in rule.variables if kind == "list"}
        if any(it.kind == "variable" and it.name.text in lists for it in parts_of(value)):
            taken.add((root, mark))
        longest = max(longest, len(value.parts) if value.kind == "list" else 1)
    for root in (True, False):
        for mark in ("grey", "green", "blue", "red", ""):
            if not {(root, mark), (root, "any")} & taken:
                return root, mark, ":0" * longest
    return None


class Loops:
    """The loops of a program, in the order of the text, and which stand within which, by calls too."""

    def __init__(self, tree):
        self.loops, self.parts = [], {}
        own = {}
        meant = {token.start: scope.meant(token.text) for token, scope, _ in calls_of(tree)}
        for procedure in procedures_of(tree.declarations):
            for part in parts_of(procedure.body):
                if part.kind == "loop":
                    self.loops.append(part)
        self.loops.sort(key=lambda it: it.first)
        number = {it: at for at, it in enumerate(self.loops)}

        def within(part, seen):
            found = set()
            for it in parts_of(part):
                if it.kind == "loop":
                    found.add(number[it])
                elif it.kind == "procedure call":
                    procedure = meant.get(it.names[0].start)
                    if procedure and procedure.kind == "procedure" and procedure not in seen:
                        if procedure not in own:
                            own[procedure] = within(procedure.body, seen | {procedure})
                        found |= own[procedure]
            return found
        self.inner = [within(it.body, frozenset()) for it in self.loops]
        self.meant = meant

    def cannot_fail(self, part, calls=0):
        """Whether no run of the command fails; False where that is not seen."""
        kind = part.kind
        if kind in ("skip", "loop"):
            return True
        if kind in ("sequence", "or"):
            return all(self.cannot_fail(it, calls) for it in part.parts)
        if kind == "parentheses":
            return self.cannot_fail(part.inner, calls)
        if kind in ("if", "try"):
            return all(it is None or self.cannot_fail(it, calls) for it in (part.then, part.other))
        if kind == "procedure call":
            procedure = self.meant.get(part.names[0].start)
            is_known = procedure and procedure.kind == "procedure" and calls < 64
            return bool(is_known and self.cannot_fail(procedure.body, calls + 1))
        return False

    def has_break(self, part, calls=0):
        for it in parts_of(part):
            if it.kind == "break":
                return True
            if it.kind == "procedure call" and calls < 64:
                procedure = self.meant.get(it.names[0].start)
                if procedure and procedure.kind == "procedure" and self.has_break(procedure.body, calls + 1):
                    return True
        return False


def counted_program(text, tokens, loops, counter):
    """The program with a counting rule for each loop, which come last, so that no rule gets another number."""
    root, mark, more = counter
    inserts = []
    for at, loop in enumerate(loops.loops):
        inserts.append((tokens[loop.first].start, 1, f"(why_turn_{at}; "))
        inserts.append((tokens[loop.last].start, 0, ")"))
    out, done = [], 0
    for offset, _, piece in sorted(inserts):
        out += [text.text[done:offset], piece]
        done = offset
    out.append(text.text[done:] + "\n")
    node = f"(n{'(R)' if root else ''}, \"why\":%s{more}{f' # {mark}' if mark else ''})"
    for at in range(len(loops.loops)):
        out.append(f"why_turn_{at}(k:int) [ {node % 'k'} | ] => [ {node % 'k - 1'} | ] interface = {{n}} where k > 0\n")
    return "".join(out)


def counted_host(data, counter, turns):
    """The host with the counting node behind the other nodes."""
    root, mark, more = counter
    text = data.decode("latin-1")
    tokens, graph = read_host(text)
    names = {it.name.text for it in graph.nodes}
    name = "why"
    while name in names:
        name += "_"
    node = f" ({name}{'(R)' if root else ''}, \"why\":{turns}{more}{f' # {mark}' if mark else ''}) "
    bars = [it for it in tokens if it.text == "|" and it.kind == "sign"]
    bar = tokens[graph.nodes[-1].last + 1] if graph.nodes else bars[-1]
    return text[:bar.start] + node + text[bar.start:]


class Prefix:
    """The items of a run up to where the counting of turns ends, or up to the bound."""

    def __init__(self, journal, rules, bound):
        self.items, self.counted, self.is_cut = [], 0, False
        lines = iter(journal.split("\nend\n", 1)[0].split("\n")[1:])
        for line in lines:
            if self.counted >= bound:
                self.is_cut = True
                return
            if line == "turn":
                words = next(lines, "").split()
                if words[:1] != ["step"] or int(words[1]) < rules:
                    self.is_cut = True  # the rule that counts had no match any more
                    return
                self.items.append(("turn", int(words[1]) - rules))
                self.counted += 1
            elif line.startswith("step "):
                self.items.append(("step", int(line.split()[1])))
                self.counted += 1


class Search:
    """Looks for the number of turns after which a run is cut where it reaches its bound."""

    def __init__(self, gp2, room, text, tokens, loops, counter, host, options, bound):
        self.gp2, self.room, self.host, self.counter = gp2, room, host, counter
        self.options, self.bound = options, bound
        self.program = os.path.join(room, "counted.gp2")
        with open(self.program, "w", encoding="latin-1") as out:
            out.write(counted_program(text, tokens, loops, counter))

    def run(self, turns, rules):
        """The beginning of the run; None if it does not end soon."""
        file = os.path.join(self.room, "counted.host")
        with open(file, "w", encoding="latin-1") as out:
            out.write(counted_host(self.host, self.counter, turns))
        most = min(4 * self.bound + 4 * turns + 1000, 1 << 40)
        status, printed, said = self.gp2.run(
            ["run", self.program, file, "--journal", "--bound", str(most), *self.options["seed"]]
        )
        if status in (0, 1):
            return Prefix(printed, rules, self.bound)
        if status in (5, 6):
            return None
        raise Stop(said[-1] if said else f"gp2 ended with status {status}", status)

    def longest(self, rules):
        """The longest beginning that is found, up to the bound."""
        best, low, high, turns = None, 0, None, min(64, self.bound)
        for _ in range(ROUNDS):
            found = self.run(turns, rules)
            if found is None:
                high = turns
            else:
                low = turns
                if best is None or found.counted > best.counted:
                    best = found
                if found.counted >= self.bound or not found.is_cut:
                    return best
            if high is None:
                share = best.counted / max(1, low)
                turns = min(max(low * 2, int(self.bound / max(1.0, share)) + 1), self.bound)
                if turns == low:
                    return best
            else:
                turns = (low + high) // 2
                if turns <= low:
                    return best
        return best


def stack_of(prefix, loops):
    """The loops that the run is in at its end: for each its number, its turns, and at which counted item it began."""
    stack = []
    for counted, (kind, what) in enumerate(prefix.items):
        if kind == "turn":
            while stack and stack[-1][0] != what and what not in loops.inner[stack[-1][0]]:
                stack.pop()
            if stack and stack[-1][0] != what and what in [it[0] for it in stack]:
                while stack[-1][0] != what:
                    stack.pop()
            if stack and stack[-1][0] == what:
                stack[-1][1] += 1
            else:
                stack.append([what, 1, counted])
    return stack


def print_loops(text, tokens, rules, loops, prefix):
    stack, counted = stack_of(prefix, loops), prefix.counted
    turns = Counter(what for kind, what in prefix.items if kind == "turn")

    def shown(at):
        loop = loops.loops[at]
        said = spaced(tokens[loop.first:loop.last + 1])
        return f"{text.at(tokens[loop.first].start)}: `{said if len(said) <= 60 else said[:56] + ' ..'}`"
    spending = [it for it in stack if 2 * (counted - it[2]) >= counted]
    if spending:
        at, of_loop, began = spending[-1]
        print(
            f"{shown(at)} spends the bound: it is in its turn {of_loop}, and {counted - began} of the "
            f"{counted} steps and "
            "turns were made since it began"
        )
        body = loops.loops[at].body
        if loops.cannot_fail(body) and not loops.has_break(body):
            print("  Its body cannot fail and has no `break`, so it never ends.")
    print("The turns of each loop:")
    for at in sorted(turns, key=lambda it: -turns[it]):
        inside = " (the run is in it)" if at in [it[0] for it in stack] else ""
        print(f"  {turns[at]:9}  {shown(at)}{inside}")
    print_rules(text, rules, [what for kind, what in prefix.items if kind == "step"])


def print_rules(text, rules, made):
    """How often each rule was used, and the last steps."""
    steps = Counter(made)
    print("The steps of each rule, those that were undone among them:")
    for at, rule in enumerate(rules):
        if steps[at]:
            print(f"  {steps[at]:9}  {rule.name.text} ({text.at(rule.name.start)})")
    never = [rule.name.text for at, rule in enumerate(rules) if not steps[at]]
    if never:
        print(f"  no step of {', '.join(never)}")
    last = [rules[it].name.text for it in made[-LAST:]]
    if last:
        print(f"The last {len(last)} steps: {runs_of(last)}")


def runs_of(names):
    """`a a a b` as `a (3 times) b`."""
    out = []
    for name in names:
        if out and out[-1][0] == name:
            out[-1][1] += 1
        else:
            out.append([name, 1])
    return " ".join(name if count == 1 else f"{name} ({count} times)" for name, count in out)


def bound(gp2, options, words):
    """The command: status 5 if the run reaches its bound, and 0 if it ends."""
    with tempfile.TemporaryDirectory() as room:
        data, program_file = as_file(words[0], room, "program")
        host, host_file = as_file(words[1], room, "host")
        text = Text(words[0], data)
        tokens, _, tree = read_both(gp2, text, program_file, host_file, words)
        rules, loops = list(rules_of(tree.declarations)), Loops(tree)
        most = int((options["bound"] or ["", DEFAULT])[1])
        status, printed, said = gp2.run(
            ["run", program_file, host_file, "--journal", "--bound", str(most), *options["seed"]]
        )
        if status in (0, 1):
            return tell_end(text, rules, printed, most)
        if status != 5:
            raise Stop(said[-1] if said else f"gp2 ended with status {status}", status)
        counter = counter_of(rules)
        if not counter or not loops.loops:
            print(f"{text.name}: the run reaches the bound of {most} steps and turns.")
            print("Which loop spends it is not told: the rules of this program match a node of any mark." if loops.loops
                  else "It has no loop; a greater bound is needed.")
            return 5
        prefix = Search(gp2, room, text, tokens, loops, counter, host, options, most).longest(len(rules))
        if prefix is None:
            raise Stop("no beginning of the run was found that ends")
        part = f"; here are the first {prefix.counted}" if prefix.counted < most else ""
        print(f"{text.name}: the run on {words[1]} reaches the bound of {most} steps and turns{part}.")
        print_loops(text, tokens, rules, loops, prefix)
        return 5


def tell_end(text, rules, printed, most):
    lines = printed[:printed.index("\nend\n")].split("\n")[1:]
    steps = [int(it.split()[1]) for it in lines if it.startswith("step ")]
    print(f"{text.name}: the run ends after {lines.count('turn') + len(steps)} steps and turns; the bound is {most}.")
    print_rules(text, rules, steps)
    return 0
