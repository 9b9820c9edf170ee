"""Tokens and trees of GP 2 programs and hosts, with their places in the text, for scripts that say more than `gp2`
does.

`gp2` decides what a text is; these trees only tell where. A text is a `str` with one character for each byte
(latin-1), so that an index is a byte offset. Call `tokens_of`, then `read_program` or `read_host`."""
import re

RESERVED = frozenset(
    "interface where empty not and or edge indeg outdeg length int char string atom list".split()
    + "if then else try skip fail break".split()
)
TYPES = ("int", "char", "string", "atom", "list")
COMPARISONS = ("=", "!=", "<", "<=", ">", ">=")
LARGEST = 1 << 127
DEEPEST = 64
PIECE = re.compile(r'[ \t\r\n]+|//[^\n]*|/\*.*?\*/|[A-Za-z0-9_]+|"[ !#-~]*"|<=|>=|!=|=>|[][(){}<>=,;:.+\-*/#|!]', re.S)


class Fault(Exception):
    """The first fault of a text: its name, the name or the number that `gp2` tells with it, and where it is."""

    def __init__(self, name, start, end=None, told="", **more):
        super().__init__(name)
        self.name, self.start, self.end, self.told = name, start, start + 1 if end is None else end, told
        self.more = more


class Token:
    __slots__ = ("kind", "text", "start", "end")

    def __init__(self, kind, text, start, end):
        self.kind, self.text, self.start, self.end = kind, text, start, end


class Part:
    """A part of a tree: its kind, its first and last token (their numbers), and what it is made of."""

    def __init__(self, kind, first, last, **made_of):
        self.kind, self.first, self.last = kind, first, last
        self.__dict__.update(made_of)


def bad_string(text, start):
    """Why no string begins at this quotation mark."""
    for at in range(start + 1, len(text)):
        if not " " <= text[at] <= "~":
            return Fault("BadByte", at, told=str(at), opened=start)
    return Fault("OpenString", start, told=str(start))


def tokens_of(text):
    """The tokens of a text, behind them one of kind `end`, and its comments."""
    tokens, comments, at = [], [], 0
    while at < len(text):
        if text.startswith("/*", at) and text.find("*/", at + 2) < 0:
            raise Fault("OpenComment", at, at + 2, str(at))
        found = PIECE.match(text, at)
        if not found:
            raise bad_string(text, at) if text[at] == '"' else Fault("BadByte", at, told=str(at))
        piece, begin, at = found.group(), at, found.end()
        if piece[0] in " \t\r\n":
            continue
        if piece.startswith(("//", "/*")):
            comments.append(Token("comment", piece, begin, at))
            continue
        kind = "number" if piece.isdigit() else "word" if piece[0].isalnum() or piece[0] == "_" else "sign"
        if piece[0] == '"':
            kind = "string"
        if kind == "number" and int(piece) > LARGEST:
            raise Fault("NumberTooLong", begin, at, str(begin))
        tokens.append(Token(kind, piece, begin, at))
    tokens.append(Token("end", "", len(text), len(text)))
    return tokens, comments


def depth_fault(tokens):
    """The first token that is nested too deep, if there is one."""
    depth, run, runs, added = 0, 0, "", []
    for token in tokens[:-1]:
        if token.text in ("-", "not") and token.kind != "string":
            run = run + 1 if runs == token.text else 1
            runs = token.text
        else:
            ended, run, runs = run, 0, ""
            if token.kind == "sign" and token.text in "([{":
                added.append(1 + ended)
                depth += added[-1]
            elif token.kind == "sign" and token.text in ")]}":
                depth -= added.pop() if added else 0
        if depth + run > DEEPEST:
            return Fault("TooDeep", token.start, token.end)
    return None


class Reader:
    """Reads tokens by a grammar. `wanted` has what would fit at the present token, `inside` the parts that are open."""

    def __init__(self, tokens):
        self.tokens, self.at, self.wanted, self.inside = tokens, 0, set(), []

    def look(self, ahead=0):
        return self.tokens[min(self.at + ahead, len(self.tokens) - 1)]

    def step(self):
        self.at += 1
        self.wanted = set()
        return self.tokens[self.at - 1]

    def is_next(self, text):
        """Whether this sign or reserved word comes; it is noted as what would fit."""
        self.wanted.add(text)
        token = self.look()
        return token.text == text and token.kind in ("sign", "word")

    def eat(self, text):
        return self.step() if self.is_next(text) else None

    def need(self, text):
        return self.eat(text) or self.refuse()

    def refuse(self, said=None):
        if said:
            self.wanted.add(said)
        token = self.look()
        raise Fault("Syntax", token.start, max(token.end, token.start + 1), at=self.at, wanted=set(self.wanted),
                    inside=list(self.inside))

    def one(self, said, fits):
        return self.step() if fits(self.look()) else self.refuse(said)

    def item(self, said):
        return self.one(said, lambda it: it.kind == "number" or it.kind == "word" and it.text not in RESERVED)

    def part(self, kind, first, **made_of):
        return Part(kind, first, self.at - 1, **made_of)

    def within(self, kind, read, *words):
        """Reads a part, which is among those that are open meanwhile."""
        self.inside.append((kind, self.at))
        made = read(*words)
        self.inside.pop()
        return made

    # ---- graphs

    def two_bars(self):
        bars = 0
        for token in self.tokens[self.at:]:
            if token.kind == "sign" and token.text in ("]", "["):
                break
            bars += token.kind == "sign" and token.text == "|"
        return bars >= 2

    def position(self):
        self.need("<")
        for sign in (",", ">"):
            self.eat("-")
            self.one("a number", lambda it: it.kind == "number")
            if self.eat("."):
                self.one("a number", lambda it: it.kind == "number")
            self.need(sign)

    def graph(self, label, is_host):
        first = self.at
        self.need("[")
        if self.is_next("<"):
            self.position()
            if self.two_bars():
                self.need("|")
        nodes, edges = [], []
        while self.is_next("("):
            nodes.append(self.within("node", self.node, label))
        self.need("|")
        while self.is_next("("):
            edges.append(self.within("edge", self.edge, label, is_host))
        self.need("]")
        return self.part("graph", first, nodes=nodes, edges=edges)

    def flag(self, letter):
        """`(R)` or `(B)`, if it comes."""
        if not self.eat("("):
            return False
        self.need(letter)
        self.need(")")
        return True

    def node(self, label):
        first = self.at
        self.need("(")
        name = self.item("a node's name")
        root = self.flag("R")
        self.need(",")
        marked = self.within("label", label)
        if self.is_next("<"):
            self.position()
        self.need(")")
        return self.part("node", first, name=name, root=root, label=marked)

    def edge(self, label, is_host):
        first = self.at
        self.need("(")
        name = self.item("an edge's name")
        both = False if is_host else self.flag("B")
        self.need(",")
        source = self.item("the source, a node's name")
        self.need(",")
        target = self.item("the target, a node's name")
        self.need(",")
        marked = self.within("label", label)
        self.need(")")
        return self.part("edge", first, name=name, both=both, source=source, target=target, label=marked)

    def mark(self):
        return self.one("a mark", lambda it: it.kind == "word") if self.eat("#") else None

    # ---- hosts

    def host_atom(self):
        first = self.at
        minus = self.eat("-")
        token = self.one("a number" if minus else "an integer or a string",
                         lambda it: it.kind == "number" or it.kind == "string" and not minus)
        return self.part("atom", first, token=token, minus=bool(minus))

    def host_label(self):
        first, atoms = self.at, []
        if not self.eat("empty"):
            atoms.append(self.host_atom())
            while self.eat(":"):
                atoms.append(self.host_atom())
        return self.part("label", first, atoms=atoms, mark=self.mark())

    def host(self):
        graph = self.within("graph", self.graph, self.host_label, True)
        if self.look().kind != "end":
            self.refuse("the end of the host")
        return graph

    # ---- expressions and conditions

    def label(self):
        first = self.at
        value = self.value()
        return self.part("label", first, value=value, mark=self.mark())

    def chain(self, kind, signs, read):
        first, parts, operators = self.at, [read()], []
        while any([self.is_next(sign) for sign in signs]):
            operators.append(self.step())
            parts.append(read())
        return self.part(kind, first, parts=parts, operators=operators) if operators else parts[0]

    def value(self):
        return self.chain("list", ":", self.concatenation)

    def concatenation(self):
        return self.chain("string chain", ".", self.sum)

    def sum(self):
        return self.chain("sum", "+-", self.product)

    def product(self):
        return self.chain("product", "*/", self.unary)

    def unary(self):
        first = self.at
        if not (self.look().text == "-" and self.eat("-")):
            return self.primary()
        if self.look().kind == "number":
            self.step()
            return self.part("numeral", first, token=first + 1)
        return self.part("minus", first, operand=self.unary())

    def primary(self):
        token, first = self.look(), self.at
        if token.kind == "number":
            self.step()
            return self.part("numeral", first, token=first)
        if token.kind == "string":
            self.step()
            return self.part("string", first, token=token)
        if token.kind == "word" and token.text in ("indeg", "outdeg", "length"):
            self.step()
            self.need("(")
            name = self.variable() if token.text == "length" else self.item("a node's name")
            self.need(")")
            return self.part(token.text, first, name=name)
        if token.kind == "word" and token.text == "empty":
            self.step()
            return self.part("empty", first)
        if token.kind == "sign" and token.text == "(":
            self.step()
            inner = self.value()
            self.need(")")
            return self.part("parentheses", first, inner=inner)
        if token.kind == "word" and token.text not in RESERVED and token.text[0].isalpha():
            self.step()
            return self.part("variable", first, name=token)
        return self.refuse("a value")

    def variable(self):
        return self.one("a variable", lambda it: it.kind == "word" and it.text not in RESERVED and it.text[0].isalpha())

    def condition(self):
        return self.chain("or", ["or"], self.conjunction)

    def conjunction(self):
        return self.chain("and", ["and"], self.negation)

    def negation(self):
        first = self.at
        if self.look().text == "not" and self.eat("not"):
            return self.part("not", first, operand=self.negation())
        if self.look().text == "(" and self.look().kind == "sign":
            return self.bracketed()
        return self.test()

    def bracketed(self):
        """A condition in parentheses, or a comparison that begins with a parenthesis: what reads further is taken."""
        first, inside = self.at, list(self.inside)
        try:
            self.need("(")
            inner = self.condition()
            self.need(")")
            return self.part("parentheses", first, inner=inner)
        except Fault as fault:
            other = fault
        self.at, self.inside = first, inside
        try:
            return self.test()
        except Fault as fault:
            if other.more["at"] == fault.more["at"]:
                fault.more["wanted"] |= other.more["wanted"]
            raise other if other.more["at"] > fault.more["at"] else fault

    def test(self):
        token, first = self.look(), self.at
        if token.kind == "word" and token.text in ("int", "char", "string", "atom"):
            self.step()
            self.need("(")
            inner = self.value()
            self.need(")")
            return self.part("type test", first, inner=inner)
        if token.kind == "word" and token.text == "edge":
            self.step()
            self.need("(")
            ends = [self.item("a node's name")]
            self.need(",")
            ends.append(self.item("a node's name"))
            marked = self.within("label", self.label) if self.eat(",") else None
            self.need(")")
            return self.part("edge test", first, ends=ends, label=marked)
        self.wanted.add("a condition")
        left = self.value()
        if not any([self.is_next(sign) for sign in COMPARISONS]):
            self.refuse()
        sign = self.step()
        return self.part("comparison", first, left=left, sign=sign, right=self.value())

    # ---- programs

    def program(self):
        declarations = self.declarations()
        if self.look().kind != "end":
            self.refuse("a declaration")
        return self.part("program", 0, declarations=declarations)

    def declarations(self):
        found = []
        while True:
            token = self.look()
            if token.kind == "word" and "A" <= token.text[0] <= "Z":
                found.append(self.within("procedure", self.procedure))
            elif token.kind == "word" and "a" <= token.text[0] <= "z" and token.text not in RESERVED:
                found.append(self.within("rule", self.rule))
            else:
                self.wanted.add("a declaration")
                return found

    def procedure(self):
        first = self.at
        name = self.step()
        self.need("=")
        local = []
        if self.eat("["):
            local = self.within("local declarations", self.declarations)
            self.need("]")
        return self.part("procedure", first, name=name, local=local, body=self.within("commands", self.sequence))

    def sequence(self):
        return self.chain("sequence", ";", self.command)

    def command(self):
        first, token = self.at, self.look()
        if token.kind != "word" or token.text not in ("if", "try"):
            return self.block()
        self.step()
        condition = self.block()
        then = self.block() if self.eat("then") else None
        if token.text == "if" and not then:
            self.refuse()
        other = self.block() if self.eat("else") else None
        return self.part(token.text, first, condition=condition, then=then, other=other)

    def block(self):
        return self.chain("or", ["or"], self.simple)

    def simple(self):
        first, token = self.at, self.look()
        if token.kind == "word" and token.text in ("skip", "fail", "break"):
            self.step()
            return self.part(token.text, first)
        if token.kind == "sign" and token.text == "(":
            self.step()
            made = self.within("parentheses", self.sequence)
            self.need(")")
            made = self.part("parentheses", first, inner=made)
        elif token.kind == "sign" and token.text == "{":
            made = self.within("set", self.rule_set)
        elif token.kind == "word" and token.text not in RESERVED and token.text[0].isalpha():
            self.step()
            made = self.part("call" if token.text[0].islower() else "procedure call", first, names=[token])
        else:
            self.refuse("a command")
        if self.look().text == "!" and self.look().kind == "sign":
            self.step()
            return self.part("loop", first, body=made)
        self.wanted.add("!")
        return made

    def rule_set(self):
        first, names = self.at, []
        self.need("{")
        if not self.eat("}"):
            names.append(self.rule_name())
            while self.eat(","):
                names.append(self.rule_name())
            self.need("}")
        return self.part("call", first, names=names)

    def rule_name(self):
        return self.one(
            "a rule's name", lambda it: it.kind == "word" and "a" <= it.text[0] <= "z" and it.text not in RESERVED
        )

    def rule(self):
        first = self.at
        name = self.step()
        self.need("(")
        variables = self.within("variables", self.variables)
        left = self.within("left graph", self.graph, self.label, False)
        self.need("=>")
        right = self.within("right graph", self.graph, self.label, False)
        self.need("interface")
        self.need("=")
        interface = self.within("interface", self.interface)
        where = self.at
        condition = self.within("condition", self.condition) if self.eat("where") else None
        return self.part("rule", first, name=name, variables=variables, left=left, right=right, interface=interface,
                         condition=condition, where=where)

    def variables(self):
        """Pairs of a variable and its type, up to the closing parenthesis."""
        found = []
        if self.eat(")"):
            return found
        while True:
            group = [self.variable()]
            while self.eat(","):
                group.append(self.variable())
            self.need(":")
            kind = self.one("a type", lambda it: it.kind == "word" and it.text in TYPES)
            found += [(name, kind.text) for name in group]
            if not self.eat(";"):
                self.need(")")
                return found

    def interface(self):
        names = []
        self.need("{")
        if not self.eat("}"):
            names.append(self.item("a node's name"))
            while self.eat(","):
                names.append(self.item("a node's name"))
            self.need("}")
        return names


def parts_of(part):
    """The part and all parts that it is made of, in the order of the text."""
    if isinstance(part, (list, tuple)):
        for it in part:
            yield from parts_of(it)
    elif isinstance(part, Part):
        yield part
        for it in part.__dict__.values():
            yield from parts_of(it)


def number_fault(tokens, numerals):
    for part in numerals:
        if int(tokens[part.token].text) == LARGEST and part.token == part.first:
            return Fault("NumberRange", tokens[part.token].start, tokens[part.token].end)
    return None


def read_program(text):
    """The tokens and the tree of a program, or its first fault of tokens, depth, syntax or numbers."""
    tokens, comments = tokens_of(text)
    fault = depth_fault(tokens)
    if fault:
        raise fault
    tree = Reader(tokens).program()
    fault = number_fault(tokens, (it for it in parts_of(tree) if it.kind == "numeral"))
    if fault:
        raise fault
    return tokens, comments, tree


def read_host(text):
    """The tokens and the graph of a host, or its first fault."""
    tokens, _ = tokens_of(text)
    graph = Reader(tokens).host()
    for item in graph.nodes + graph.edges:
        for atom in item.label.atoms:
            if not atom.minus and atom.token.kind == "number" and int(atom.token.text) == LARGEST:
                raise Fault("NumberRange", atom.token.start, atom.token.end, str(atom.token.start))
    return tokens, graph


def rules_of(declarations):
    """The rules, local ones too, in the order of the text."""
    for it in declarations:
        if it.kind == "rule":
            yield it
        else:
            yield from rules_of(it.local)


def procedures_of(declarations):
    for it in declarations:
        if it.kind == "procedure":
            yield it
            yield from procedures_of(it.local)


class Text:
    """A file as it is shown: lines and columns from 1, in characters."""

    def __init__(self, name, data):
        self.name, self.data = name, data
        self.text = data.decode("latin-1")

    def place(self, offset):
        begin = self.data.rfind(b"\n", 0, offset) + 1
        return self.data.count(b"\n", 0, offset) + 1, len(self.data[begin:offset].decode("utf-8", "replace")) + 1

    def at(self, offset):
        return f"{self.name}:%d:%d" % self.place(offset)

    def line_at(self, offset):
        """The line at an offset, and the offset's column in it, from 0."""
        begin = self.data.rfind(b"\n", 0, offset) + 1
        end = self.data.find(b"\n", offset)
        line = self.data[begin:len(self.data) if end < 0 else end].rstrip(b"\r")
        return line.decode("utf-8", "replace"), self.place(offset)[1] - 1
