"""`why fault`: where and why `gp2` refuses a program or a host.

`gp2` is asked first, and only what it answers is explained. A place of its own is told only where it agrees with
`gp2`."""
import os
import re
import tempfile

import gp2_clauses
from gp2_text import COMPARISONS, RESERVED, TYPES, Fault, Text, parts_of, read_host, read_program, rules_of, tokens_of
from why_gp2 import Stop

NO_PLACE = "Its exact place is not known here."
MARKS = ("red", "green", "blue", "grey", "dashed", "any")
NO_VALUES = (*TYPES, "edge", "skip", "fail", "break", "try")  # reserved words that no value begins with
CLOSES = {"(": ")", "[": "]", "{": "}"}
OPERATORS = {":", ".", "+", "-", "*", "/"}
NAMES = ("a node's name", "an edge's name", "the source, a node's name", "the target, a node's name", "a variable",
         "a rule's name")
LOOKS_LIKE = {"“": '"', "”": '"', "„": '"', "«": '"', "»": '"', "‘": '"', "’": '"', "→": "=>", "⇒": "=>", "⟹": "=>",
              "≠": "!=", "≤": "<=", "≥": ">=", "–": "-", "—": "-", "−": "-", "×": "*", "·": "*", "÷": "/", "¬": "not",
              "∧": "and", "∨": "or", "∅": "empty", "\u00a0": "a space", "\u2009": "a space", "\u200b": "nothing"}
INSTEAD = {"'": 'Strings stand between quotation marks `"`.', "&": "Conditions are joined by `and`.",
           "%": "A comment begins with `//`; division is `/`.", "^": "There is no power; `*` multiplies.",
           "\\": "A backslash stands in strings only.", "~": "A condition is negated by `not`.",
           "?": "`try P` runs P, and goes on if it fails.", "@": "", "$": "", "`": ""}


def what(fault, told, text):
    """What is wrong, in a few words."""
    shown = text.text[fault.start:fault.end]
    if fault.name == "Syntax":
        return "the text ends too early" if fault.start >= len(text.text) else f"`{shown}` does not fit here"
    words = {
        "TooLong": "the file has more than 2^28 bytes", "OpenString": "the string that begins here does not end",
        "OpenComment": "the comment that begins here does not end", "NumberTooLong": "the number is greater than 2^127",
        "TooDeep": "more than 64 brackets, or `-` signs, or `not`s, are open here",
        "NumberRange": "2^127 is allowed only with a minus sign",
        "NoMain": "there is no procedure `Main` outside procedures",
        "TwoMains": "`Main` is declared a second time",
        "TwoRules": f"`{told}` is declared a second time",
        "Unknown": f"`{told}` is called, and cannot be called here",
        "Recursive": f"`{told}` calls itself",
        "DeepCalls": f"the calls that begin at `{told}` are too deep",
        "StrayBreak": "`break` outside a loop",
        "TooLarge": "the rule is too large",
        "TwiceDeclared": f"`{told}` stands here a second time",
        "UnknownNode": f"`{told}` is not a node here",
        "BadInterface": f"`{told}` may not be in the interface",
        "Unbound": f"`{told}` has no value",
        "BadType": "an operand has the wrong type",
        "NotSimple": "this may not stand on the left side",
        "BadMark": f"`{shown}` is not a mark that may stand here",
        "BadBidi": f"`{told}` may not have `(B)` here",
        "TwoNodes": f"a second node has the name `{told}`",
        "TwoEdges": f"a second edge has the name `{told}`",
        "NoSuchEnd": f"no node has the name `{told}`",
        "WrongMark": f"`{shown}` is not a mark that may stand here",
    }
    return words.get(fault.name, "")


def bad_byte(fault, text):
    """What is wrong with a byte, and what may be meant by it."""
    line, column = text.line_at(fault.start)
    sign = line[column] if column < len(line) else "\n"
    if text.data[:2] in (b"\xff\xfe", b"\xfe\xff") or (fault.start < 2 and text.data[1:2] == b"\0"):
        return (
            "this is no plain text",
            "The file seems to be UTF-16. Save it as plain text (UTF-8 without a byte order mark).",
        )
    if text.data[:3] == b"\xef\xbb\xbf" and fault.start < 3:
        return "the file begins with a byte order mark", "Save it as UTF-8 without a byte order mark."
    opened = open_string(text.text, fault.start)
    if opened is not None:
        line_of, column_of = text.place(opened)
        if sign in "\r\n" or column >= len(line):
            return (
                "the line ends within a string",
                f"The string begins at {line_of}:{column_of}, and has to end on that line.",
            )
        seen = "a tab" if sign == "\t" else f"`{sign}`"
        return (
            f"{seen} is not allowed in a string",
            "A string has the ASCII characters from space to `~`, but for the quotation mark.",
        )
    if ord(sign) > 126 or ord(sign) < 32:
        shown = f"`{sign}`" if sign.isprintable() else f"the character U+{ord(sign):04X}"
        meant = LOOKS_LIKE.get(sign)
        hint = (
            f"It may be meant as {meant if len(meant) > 6 or meant in ('nothing', 'a space') else f'`{meant}`'}. "
            if meant
            else ""
        )
        return f"{shown} is not allowed here", f"{hint}Outside of comments only ASCII characters are allowed."
    return f"`{sign}` is not allowed here", INSTEAD.get(sign, "")


def open_string(text, offset):
    """Where the string begins in which this offset is, if it is in one."""
    try:
        tokens_of(text)
    except Fault as fault:
        if fault.name == "BadByte" and fault.start == offset:
            return fault.more.get("opened")
    return None


# ---- faults of syntax


def said_expected(wanted, inner):
    """The words for what would fit in this part."""
    wanted = set(wanted)
    groups = []
    if "an integer or a string" in wanted:
        wanted.discard("-")
    if inner in ("node", "edge") and {"(", ","} <= wanted:
        wanted = wanted - {"("} | {"(R)" if inner == "node" else "(B)"}
    if len(wanted & OPERATORS) >= 3:
        wanted -= OPERATORS
        groups.append("an operator such as `:`")
    if len(wanted & set(COMPARISONS)) >= 4:
        wanted -= set(COMPARISONS)
        groups.append("a comparison such as `=`")
    elif "<" in wanted and len(wanted) > 1:
        wanted.discard("<")  # a position
    signs = sorted(it for it in wanted if " " not in it and it not in NAMES)
    order = ") ] } ( [ { , ; | # : = => ! and or then else where interface".split()
    signs.sort(key=lambda it: order.index(it) if it in order else len(order))
    words = [f"`{it}`" for it in signs] + groups + sorted(it for it in wanted if it not in signs)
    return words[0] if len(words) == 1 else ", ".join(words[:-1]) + " or " + words[-1]


class Syntax:
    """Sentences for the usual mistakes: each method looks at one part of the grammar."""

    def __init__(self, text, tokens, fault, is_host):
        self.text, self.tokens, self.fault, self.is_host = text, tokens, fault, is_host
        self.at, self.wanted = fault.more["at"], fault.more["wanted"]
        self.inside = fault.more["inside"]
        self.inner, self.first = self.inside[-1] if self.inside else ("", 0)
        self.token = tokens[self.at]
        self.kinds = [kind for kind, _ in self.inside]

    def ahead(self, by):
        return self.tokens[max(0, min(self.at + by, len(self.tokens) - 1))]

    def is_sign(self, *signs):
        return self.token.kind == "sign" and self.token.text in signs

    def hint(self):
        for look in (
            self.swapped,
            self.declaration,
            self.variables,
            self.reserved,
            self.rule,
            self.comparison,
            self.commands,
            self.graph,
            self.label,
            self.brackets,
        ):
            said = look()
            if said:
                return said
        return ""

    def swapped(self):
        if self.is_host and self.at == 0 and self.token.kind == "word" and self.ahead(1).text in ("=", "("):
            return "This looks like a program. Are the files swapped? It is `gp2 run PROGRAM HOST`."
        if not self.is_host and self.at == 0 and self.is_sign("["):
            return "This looks like a host. Are the files swapped? It is `gp2 run PROGRAM HOST`."
        if self.at == 0 and self.token.text in ("gp2", "fail"):
            return "This looks like what `gp2` prints, and not like a file for it."
        return None

    def declaration(self):
        if self.inner not in ("rule", "procedure") or self.at != self.first + 1:
            return None
        name = self.ahead(-1).text
        if self.inner == "procedure":
            if self.is_sign("(") and name != "Main":
                return f"The name of a rule begins with a lower-case letter: `{name[0].lower() + name[1:]}(..)`."
            return f"A procedure is written `{name} = ..`" + (", without parentheses." if self.is_sign("(") else ".")
        if self.is_sign("="):
            upper = name[0].upper() + name[1:]
            return f"The name of a procedure begins with an upper-case letter: `{upper} = ..`."
        if self.is_sign("["):
            return f"Behind a rule's name stand its variables in parentheses, also if there are none: `{name}()`."
        if self.first > 0 and self.ahead(-2).text == "while":
            return (
                "There is no `while`: `r!` repeats r as long as possible, and `(if c then p else break)!` as "
                "long as c holds."
            )
        if self.first > 0:
            return (
                f"Here `{name}` is read as the beginning of a declaration, since no `;` stands before it. "
                "Commands that "
                f"run one after another are separated by `;`."
            )
        return f"A rule begins `{name}(..)`, and a procedure `{name[0].upper() + name[1:]} = ..`."

    def variables(self):
        if self.inner != "variables":
            return None
        if self.is_sign(",") and self.ahead(-1).text in TYPES:
            return "Variables of different types are separated by `;`, as in `(x:list; i:int)`."
        if self.token.text in TYPES and "a variable" in self.wanted and self.ahead(1).text not in (":", ","):
            return f"The type stands behind the variable, as in `x:{self.token.text}`."
        if "a type" in self.wanted:
            near = gp2_clauses.near(self.token.text, TYPES)
            return f"The types are `int`, `char`, `string`, `atom` and `list`. {near}".rstrip()
        if ":" in self.wanted:
            return "Each variable has a type, as in `(x, y:list; i:int)`."
        return None

    def reserved(self):
        if self.token.kind != "word" or self.token.text not in RESERVED:
            return None
        named = self.wanted & set(NAMES) or "a value" in self.wanted and self.token.text in NO_VALUES
        declared = (
            "a declaration" in self.wanted and self.ahead(1).text in ("=", "(") and self.token.text not in ("if", "try")
        )
        if named or declared:
            return f"`{self.token.text}` is a reserved word, so it cannot be a name."
        return None

    # ---- a rule behind its left graph

    def rule(self):
        if "=>" in self.wanted:
            return "Between the left and the right graph stands `=>`."
        if "interface" in self.wanted:
            if self.token.text == "where":
                return "`interface = {..}` stands before `where`."
            return "Behind the right graph stands `interface = {..}`, also if it has no names: `interface = {}`."
        if self.inner == "interface":
            if self.token.kind in ("word", "number") and "," in self.wanted:
                return "The names in the interface are separated by `,`."
            return "The interface is written `interface = {n0, n1}`."
        if self.inner == "rule" and "=" in self.wanted:
            return "The interface is written `interface = {n0, n1}`."
        return None

    def comparison(self):
        return self.compared() if "condition" in self.kinds else None

    def compared(self):
        before = self.ahead(-1)
        pair = before.text + self.token.text if before.end == self.token.start else ""
        instead = {"==": "=", "=<": "<=", "<>": "!=", "!==": "!=", "||": "or"}.get(pair)
        if self.token.text == "=>" and self.token.kind == "sign":
            instead = ">="
        if instead:
            return f"It is written `{instead}`."
        if self.is_sign("!"):
            return "A condition is negated by `not`."
        if self.is_sign("|"):
            return "Conditions are joined by `or`."
        if self.is_sign(","):
            return "Conditions are joined by `and` and `or`."
        if self.wanted == {"("} and before.text in (*TYPES, "edge", "indeg", "outdeg", "length"):
            return f"What `{before.text}` asks about stands in parentheses."
        if self.wanted & set(COMPARISONS) and not self.is_sign(")", "]", "}"):
            return "A condition compares two values, or is a test such as `int(x)` or `edge(n, m)`."
        if "a condition" in self.wanted and self.token.kind == "word":
            return (
                "A condition is a comparison such as `i > 0`, a test such as `int(x)` or `edge(n, m)`, or made "
                "of these by "
                "`not`, `and` and `or`."
            )
        return None

    # ---- commands

    def commands(self):
        if self.inner == "set":
            if self.is_sign(";"):
                return "The rules of a set are separated by `,`."
            if self.token.kind == "word" and "A" <= self.token.text[0] <= "Z":
                return f"A set has rules only, and `{self.token.text}` is a procedure by its upper-case letter."
            return "A set has the names of rules, separated by `,`, as in `{r, s}`."
        if "commands" not in self.kinds and self.inner not in ("procedure", "parentheses"):
            return self.before_declaration() if "a declaration" in self.wanted else None
        return self.behind_command() or self.command_expected()

    def before_declaration(self):
        """Behind a declaration: a rule's condition or a procedure's commands may go on there."""
        if self.at == 0:
            is_command = self.token.text in ("if", "try", "(", "{", "skip")
            return "Commands stand behind the name of a procedure, as in `Main = ..`." if is_command else None
        before = self.tokens[:self.at]
        rule = max((at for at, it in enumerate(before) if it.text == "interface"), default=-1)
        named = (at for at, it in enumerate(before[:-1]) if "A" <= it.text[0] <= "Z" and before[at + 1].text == "=")
        procedure = max(named, default=-1)
        if rule < procedure:
            return self.behind_command()
        if self.is_sign(","):
            return "Conditions are joined by `and` and `or`."
        if "where" in self.wanted and self.is_sign("}", ")", "]"):
            return None
        return self.compared() if "where" not in self.wanted else None

    def behind_command(self):
        before, token = self.ahead(-1), self.token
        if self.is_sign("!"):
            if before.text == "!":
                return "`r!` repeats r as long as possible, so one `!` is enough. (`(r!)!` is a loop over a loop.)"
            if before.text in ("skip", "fail", "break"):
                return f"`{before.text}` cannot be repeated; `!` stands behind a call, a set, or parentheses."
        if "a command" in self.wanted:
            return None
        if self.is_sign(","):
            return "Commands are separated by `;`; a `,` stands only in a set such as `{r, s}`."
        if token.text in ("then", "else") and token.kind == "word":
            return (
                f"This `{token.text}` belongs to no `if` or `try`. Several commands in one branch stand in "
                "parentheses, as in "
                "`if c then (a; b) else d`."
            )
        if self.is_sign("(", "=") and before.kind == "word" and before.text not in RESERVED:
            sign = self.ahead(-2).text
            if sign in (";", "=") and (self.is_sign("=") or self.behind_partner().text == "["):
                return (
                    f"`{before.text}` is read as a command, since `{sign}` stands before it. If its declaration "
                    "begins here, "
                    + ("take the `;` away." if sign == ";" else "commands are missing behind the `=`, such as `skip`.")
                )
            return f"`{before.text}` is called by its name alone." if self.is_sign("(") else None
        if self.is_sign("|"):
            return "`P or Q` runs one of the two."
        if self.wanted >= {"then"} and "a command" not in self.wanted and "else" not in self.wanted:
            return "An `if` has a `then`: `if c then p else q`."
        if token.kind == "word" and token.text not in RESERVED or self.is_sign("{", "("):
            return "Commands that run one after another are separated by `;`." if self.is_sign("{", "(") else None
        return None

    def behind_partner(self):
        """The token behind the parenthesis that closes the one that stands here."""
        depth = 0
        for at, token in enumerate(self.tokens[self.at:], self.at):
            depth += (token.text == "(") - (token.text == ")")
            if depth == 0:
                return self.tokens[min(at + 1, len(self.tokens) - 1)]
        return self.tokens[-1]

    def command_expected(self):
        before, token = self.ahead(-1), self.token
        if "a command" not in self.wanted:
            return None
        if token.text in ("if", "try") and token.kind == "word":
            return f"An `if` or `try` inside another command stands in parentheses: `{before.text} ({token.text} ..)`."
        if before.text == ";":
            return "A `;` separates commands, so there is none behind the last one."
        if self.is_sign("!"):
            return "`!` stands behind what it repeats."
        if token.kind == "word" and token.text in RESERVED:
            return f"`{token.text}` is a reserved word, so it cannot be a name."
        if self.is_sign("["):
            return (
                "Local declarations stand between `=` and the commands, as in `P = [ .. ] r`."
                if before.text != "="
                else None
            )
        return None

    # ---- graphs

    def item(self):
        """The tokens of the node or edge that is open, up to its closing parenthesis."""
        depth, found = 0, []
        start = next((at for kind, at in reversed(self.inside) if kind in ("node", "edge")), self.at)
        for token in self.tokens[start:]:
            depth += (token.text == "(") - (token.text == ")")
            if token.kind == "end" or token.text in ("|", "]", "=>"):
                break
            found.append(token)
            if depth == 0:
                break
        return found

    def graph(self):
        if "node" in self.kinds or "edge" in self.kinds:
            return self.node_or_edge()
        if self.inner not in ("graph", "left graph", "right graph"):
            return None
        if self.is_sign("]") and "|" in self.wanted:
            return "A graph has a `|` between its nodes and its edges, also if it has no edges: `[ (n, 1) | ]`."
        if self.is_sign(","):
            return "Between nodes, and between edges, stands no comma."
        if self.token.kind in ("word", "number") and "(" in self.wanted:
            return "A node or an edge stands in parentheses, as in `(n, 1)` or `(e, n, m, 1)`."
        return None

    def node_or_edge(self):
        kind = "node" if "node" in self.kinds else "edge"
        commas = sum(it.text == "," and it.kind == "sign" for it in self.item())
        if kind == "node" and commas >= 3:
            return "This looks like an edge; edges stand behind the `|`."
        if (
            self.inner == kind
            and self.is_sign(")")
            and self.wanted == {","}
            or self.is_sign(")")
            and self.wanted <= {",", "("}
        ):
            if kind == "node":
                return "A node has a name and a label, which is `empty` for the empty list: `(n, empty)`."
            return "An edge has a name, a source, a target, and a label: `(e, n, m, empty)`."
        if kind == "edge" and self.is_sign(")") and self.wanted & set(NAMES):
            return "An edge has a name, a source, a target, and a label: `(e, n, m, empty)`."
        if "R" in self.wanted:
            more = "; `(B)` is for edges of rules." if self.token.text == "B" else "."
            return f"Behind a node's name stands nothing or `(R)`, which makes it a root{more}"
        if "B" in self.wanted:
            return "Behind an edge's name stands nothing or `(B)`, which lets it match in either direction."
        if self.is_host and kind == "edge" and self.is_sign("(") and self.ahead(1).text == "B":
            return "Edges of a host have a direction, so `(B)` stands in rules only."
        if self.wanted & set(NAMES) and self.token.kind == "string":
            return "A name is a word or a number, without quotation marks; a string can be a label."
        if self.wanted & set(NAMES) and self.token.kind == "sign":
            return None
        return None

    def label(self):
        if "label" not in self.kinds and self.inner not in ("node", "edge"):
            return None
        token, before = self.token, self.ahead(-1)
        if "a mark" in self.wanted:
            return (
                "Behind `#` stands a mark: red, green, blue, grey (nodes only), dashed (edges only), or `any` in rules."
            )
        if token.kind == "word" and token.text in MARKS and "#" in self.wanted:
            return f"A mark stands behind `#`: `# {token.text}`."
        if self.is_sign(",") and "#" in self.wanted and self.ahead(1).text in MARKS:
            return f"A mark stands behind `#`: `# {self.ahead(1).text}`."
        if self.is_host and self.host_label():
            return self.host_label()
        is_atom = token.kind in ("word", "number", "string") and token.text not in RESERVED
        if ":" in self.wanted and (is_atom or self.is_sign(",")):
            return "The atoms of a list are joined by `:`, as in `1:\"one\"`."
        if ("a value" in self.wanted or "an integer or a string" in self.wanted) and self.is_sign(")", "#", ","):
            return "A value is missing; the empty list is written `empty`."
        if self.is_sign("=") and before.kind == "word":
            return "Values are compared behind `where`."
        return None

    def host_label(self):
        token = self.token
        if "an integer or a string" in self.wanted and token.kind == "word" and token.text not in RESERVED:
            return f'A host has no variables; a string stands between quotation marks: `"{token.text}"`.'
        if self.is_sign(".") and self.ahead(1).kind == "number" and self.ahead(-1).kind == "number":
            return "Numbers are integers, without a decimal point."
        if self.is_sign("+", "*", "/", ".", "(") and (":" in self.wanted or "an integer or a string" in self.wanted):
            return "A label of a host has integers and strings, and nothing is computed in it."
        return None

    def brackets(self):
        """What is still open, if something that closes would fit, or something closes that does not."""
        opened = []
        for token in self.tokens[:self.at]:
            if token.kind == "sign" and token.text in CLOSES:
                opened.append(token)
            elif token.kind == "sign" and token.text in CLOSES.values() and opened:
                opened.pop()
        if not opened:
            return "Nothing is open that it could close." if self.is_sign(*CLOSES.values()) else None
        where = "%d:%d" % self.text.place(opened[-1].start)
        if CLOSES[opened[-1].text] in self.wanted and self.token.text != opened[-1].text:
            return f"The `{opened[-1].text}` at {where} is still open here."
        return None


def syntax_hints(text, tokens, fault, is_host):
    """What would fit, and a sentence for a usual mistake."""
    hint = Syntax(text, tokens, fault, is_host).hint()
    inner = fault.more["inside"][-1][0] if fault.more["inside"] else ""
    return [f"expected: {said_expected(fault.more['wanted'], inner)}"] + ([hint] if hint else [])


# ---- the place of a fault that gp2 told


def own_fault(text, is_host):
    """The fault of tokens, depth, syntax or numbers that is found here, and the tokens if there are any."""
    try:
        tokens = read_host(text.text)[0] if is_host else read_program(text.text)[0]
        return None, tokens
    except Fault as fault:
        tokens = tokens_of(text.text)[0] if fault.name in ("Syntax", "TooDeep", "NumberRange") else []
        return fault, tokens


def host_names(text, fault_name, told):
    """The place of a fault of names or marks in a host."""
    _, graph = read_host(text.text)
    seen = set()
    names = {it.name.text for it in graph.nodes}
    for item in graph.nodes + graph.edges:
        kind, name = item.kind, item.name
        if fault_name == ("TwoNodes" if kind == "node" else "TwoEdges") and name.text == told and (kind, told) in seen:
            return Fault(
                fault_name, name.start, name.end, told, hint=f"Another {kind} `{told}` stands before this one."
            )
        seen.add((kind, name.text))
        if fault_name == "NoSuchEnd" and kind == "edge":
            for end in (item.source, item.target):
                if end.text == told and told not in names:
                    return Fault(fault_name, end.start, end.end, told, hint=gp2_clauses.near(told, names))
        mark = item.label.mark
        if fault_name == "WrongMark" and name.text == told and mark:
            marks = (gp2_clauses.NODE_MARKS if kind == "node" else gp2_clauses.EDGE_MARKS)[:-1]
            if mark.text not in marks:
                other = ", which is for rules" if mark.text == "any" else ""
                hint = (
                    f"A {kind} of a host may be {gp2_clauses.either(marks)}, or have no mark; here is "
                    f"`{mark.text}`{other}."
                )
                return Fault(fault_name, mark.start, mark.end, told, hint=hint)
    return None


def located(text, line, is_host):
    """The fault with its place, what is wrong, and sentences; or None if the place is not known."""
    words = line.split(": ", 1)[1]
    rule = re.fullmatch(r"rule (\w+): (\w+)(?: (\w+))?", words)
    by_line = re.fullmatch(r"(\w+) line (\d+)", words)
    by_offset = re.fullmatch(r"(BadByte|OpenString|OpenComment|NumberTooLong|NumberRange) (\d+)", words)
    name, _, told = words.partition(" ")
    if rule:
        tokens, _, tree = read_program(text.text)
        return gp2_clauses.rule_fault(tokens, tree, rule[1], rule[2], rule[3] or "")
    if by_offset:
        start = int(by_offset[2])
        found = re.compile(r"[0-9]+").match(text.text, start)
        return Fault(
            by_offset[1], start, found.end() if found and "Number" in by_offset[1] else start + 1, by_offset[2]
        )
    if by_line:
        fault, tokens = own_fault(text, is_host)
        if fault and fault.name == by_line[1] and text.place(fault.start)[0] == int(by_line[2]):
            if fault.name == "Syntax":
                fault.more["hints"] = syntax_hints(text, tokens, fault, is_host)
            return fault
        return None
    if name == "TooLong":
        return Fault(name, 0, 1)
    if is_host:
        return host_names(text, name, told)
    tokens, _, tree = read_program(text.text)
    return gp2_clauses.BY_NAME[name](tokens, tree, told) if name in gp2_clauses.BY_NAME else None


def by_line_alone(text, line):
    """Where only the line is known, its first character."""
    number = re.search(r" line (\d+)$", line)
    offset = 0
    for _ in range(int(number[1]) - 1 if number else 0):
        offset = text.text.find("\n", offset) + 1
    return Fault(line.split(": ", 1)[1].split()[0], offset, offset + 1)


def shown_line(text, fault):
    """The line of the text, cut if it is long, and under it a mark at the fault."""
    line, column = text.line_at(fault.start)
    line = "".join(it if it.isprintable() or it == "\t" else "\ufffd" for it in line)
    marked = text.data[fault.start:fault.end].split(b"\n")[0].decode("utf-8", "replace")
    width = max(1, min(len(marked), len(line) - column))
    begin = 0 if len(line) <= 110 else max(0, min(column - 50, len(line) - 100))
    piece, column = line[begin:begin + 100 if len(line) > 110 else len(line)], column - begin
    before = ".. " if begin else ""
    behind = " .." if begin + len(piece) < len(line) else ""
    pad = "".join("\t" if it == "\t" else " " for it in before + piece[:column])
    return ["    " + before + piece + behind, "    " + pad + "^" * max(1, min(width, len(piece) - column))]


def explained(text, line, is_host):
    """The head of the fault, the lines of the text, and the sentences."""
    try:
        fault = located(text, line, is_host)
    except Fault:
        fault = None
    sentences = []
    if fault is None:
        fault = by_line_alone(text, line)
        said = what(fault, "", text) if fault.name != "Syntax" else "from this line on the text does not fit"
        sentences.append(NO_PLACE)
    elif fault.name == "BadByte":
        said, hint = bad_byte(fault, text)
        sentences.append(hint)
    else:
        said = what(fault, fault.told, text)
        sentences += fault.more.get("hints") or [fault.more.get("hint", "")]
    rule = re.match(r"program: rule (\w+): ", line)
    of_rule = f" in rule {rule[1]}" if rule else ""
    head = f"{text.at(fault.start)}: {fault.name}{of_rule}: {said}"
    return (
        head,
        [] if fault.name == "TooLong" else shown_line(text, fault),
        [it.strip() for it in sentences if it and it.strip()],
    )


def number_fault(text, line):
    """Where the numbers of a rule are computed: `gp2` names only the rule."""
    _, rule_name, kind = line.split()
    tokens, _, tree = read_program(text.text)
    rules = [it for it in rules_of(tree.declarations) if it.name.text == rule_name]
    signs = "/" if kind == "zero-divisor" else "+-*/"
    places = []
    for rule in rules:
        for part in parts_of([rule.right, rule.condition]):
            if part.kind in ("sum", "product"):
                places += [it for it in part.operators if it.text in signs]
            elif part.kind == "minus" and signs != "/":
                places.append(tokens[part.first])
    said = "a division by zero" if kind == "zero-divisor" else "a number that does not fit into 128 bits"
    start = places[0] if len(places) == 1 else rules[0].name
    fault = Fault(kind, start.start, start.end)
    sentences = []
    if len(places) > 1:
        sentences.append("It is computed at one of " + ", ".join("%d:%d" % text.place(it.start) for it in places) + ".")
    sentences.append(f"A condition can exclude it, such as `where i {'!= 0' if signs == '/' else '< 1000'}`.")
    return f"{text.at(fault.start)}: number fault in rule {rule_name}: {said}", shown_line(text, fault), sentences


def print_fault(head, lines, sentences, line, short):
    if short:
        print("; ".join([head] + sentences))
        return
    print("\n".join([head, *lines, *(f"  {it}" for it in sentences), f"  gp2 says: {line}"]))


def as_file(name, room, called):
    """The bytes of a file, and a file that can be read again."""
    try:
        with open(name, "rb") as file:
            data = file.read()
    except OSError as error:
        raise Stop(f"{name}: {error.strerror}", 8)
    if os.path.isfile(name):
        return data, name
    copy = os.path.join(room, called)
    with open(copy, "wb") as file:
        file.write(data)
    return data, copy


def fault(gp2, options, words):
    """The command: its status is that of `gp2`."""
    with tempfile.TemporaryDirectory() as room:
        program, program_file = as_file(words[0], room, "program")
        texts = {"program": Text(words[0], program)}
        if len(words) > 1:
            host, host_file = as_file(words[1], room, "host")
            texts["host"] = Text(words[1], host)
            status, _, said = gp2.run(["run", program_file, host_file, *options["bound"], *options["seed"]], keep=False)
        else:
            host_file = os.path.join(room, "host")
            with open(host_file, "w") as file:
                file.write("[ | ]\n")
            status, _, said = gp2.run(["check", program_file, host_file, os.devnull, os.devnull], keep=False)
        return tell(texts, status, said, options["short"], len(words) > 1)


def tell(texts, status, said, short, has_run):
    program = texts["program"]
    line = next((it for it in said if re.match(r"(program|host|number|bound|read)[: ]", it)), "")
    kind = line.partition(":")[0]
    if status in (3, 4) and kind in texts:
        print_fault(*explained(texts[kind], line, kind == "host"), line, short)
        return status
    if status == 6:
        print_fault(*number_fault(program, line), line, short)
        return status
    if status == 5:
        number = line.split()[1]
        print(f"{program.name}:1:1: the run reached the bound of {number} steps and turns; "
              "`why bound` tells which loop spends it")
        return status
    if not has_run and status == 10:
        ended = "(it was not run: no host was named)"
    elif status in (0, 1):
        ended = "and the run ends with " + (
            "a graph" if status == 0 else "`fail`; `why match` tells why a rule does not match"
        )
    else:
        raise Stop("\n".join(said) or f"gp2 ended with status {status}", status or 1)
    if not short:
        names = " and ".join(it.name for it in texts.values())
        print(f"{names}: no fault, {ended}" if has_run else f"{names}: no fault {ended}")
    return 0
