"""What scripts/layout runs: `layout.py TEXT CANONICAL MADE`, three files. It sets the canonical text of a program in
lines of at most 100 columns, and puts the comments of the program's own text back where they stood."""
import bisect
import difflib
import sys

from gp2_text import Fault, read_program, tokens_of

WIDTH = 100


class Comment:
    """A comment: `own` on lines of its own, `end` behind the last token of a line, or `inline` before a token."""

    def __init__(self, token, kind, begin, end):
        self.text, self.kind, self.begin, self.end = token.text.replace("\r", "").rstrip(), kind, begin, end


def line_numbers(text):
    """The line of each offset."""
    lines, number = [], 1
    for sign in text + "\n":
        lines.append(number)
        number += sign == "\n"
    return lines


def inline_ones(own, comments, lines):
    """The numbers of the comments behind which a token stands on the same line, perhaps behind more such comments."""
    found, starts = set(), [it.start for it in own]
    for at in reversed(range(len(comments))):
        comment = comments[at]
        token = own[bisect.bisect_left(starts, comment.end)]
        is_last = at + 1 == len(comments) or comments[at + 1].start > token.start
        after = token if is_last else comments[at + 1]
        is_near = lines[after.start] == lines[comment.end - 1] and after.kind != "end"
        if is_near and not comment.text.startswith("//") and (is_last or at + 1 in found):
            found.add(at)
    return found


class Source:
    """The canonical tokens, each with the comments before and behind it, and the line where it stood."""

    def __init__(self, text, canonical, parsed):
        own, comments = tokens_of(text)
        self.text = canonical
        self.tokens, _, self.tree = parsed
        lines = line_numbers(text)
        places = self.aligned(own)
        self.first_line = [lines[own[at].start] for at in places]
        self.last_line = [lines[own[at].end - 1] if own[at].end else 1 for at in places]
        self.before = [[] for _ in self.tokens]
        self.behind = [[] for _ in self.tokens]
        starts = [it.start for it in own]
        inline = inline_ones(own, comments, lines)
        for at, comment in enumerate(comments):
            following = bisect.bisect_left(starts, comment.end)
            begin, end = lines[comment.start], lines[comment.end - 1]
            before = bisect.bisect_left(places, following) - 1
            # Behind a token on its line, unless what stands between was taken away and has comments too.
            is_behind = before >= 0 and self.last_line[before] == begin and not self.before[before + 1]
            made = Comment(comment, "inline" if at in inline else "end" if is_behind else "own", begin, end)
            (self.behind[before] if made.kind == "end" else self.before[before + 1]).append(made)

    def aligned(self, own):
        """For each canonical token, its number in the text: the text has these and more, such as parentheses."""
        places, at = [], 0
        for token in self.tokens:
            while at < len(own) and not is_same(own[at], token):
                at += 1
            if at == len(own):
                return self.matched(own)
            places.append(at)
            at += token.kind != "end"
        return places

    def matched(self, own):
        """The same where the canonical text has tokens more, as the parentheses of `-(0)` for `--0`."""
        key = lambda it: (it.kind, int(it.text) if it.kind == "number" else it.text)
        places, last = [None] * len(self.tokens), len(own) - 1
        both = [key(it) for it in own], [key(it) for it in self.tokens]
        for block in difflib.SequenceMatcher(None, *both, autojunk=False).get_matching_blocks():
            places[block.b:block.b + block.size] = range(block.a, block.a + block.size)
        for at in reversed(range(len(places))):
            last = places[at] = last if places[at] is None else places[at]
        return places

    def gap(self, at):
        return self.text[self.tokens[at - 1].end:self.tokens[at].start] if at else ""

    def width(self, first, last):
        """The columns of these tokens on one line, with the comments between them."""
        size = self.tokens[last].end - self.tokens[first].start
        return size + sum(
            len(it.text) + 1 for at in range(first, last + 1) for it in self.before[at] if it.kind == "inline"
        )

    def is_broken(self, first, last):
        """Whether a comment ends a line within these tokens."""
        inner = [it for at in range(first + 1, last + 1) for it in self.before[at]]
        inner += [it for at in range(first, last) for it in self.behind[at]]
        return any(it.kind != "inline" or "\n" in it.text for it in inner)


def is_same(one, other):
    same_number = one.kind == other.kind == "number" and int(one.text) == int(other.text)
    return same_number or one.kind == other.kind and one.text == other.text


class Sheet:
    """The lines that are written."""

    def __init__(self, source):
        self.source, self.lines, self.now = source, [], ""

    def end_line(self):
        if self.now.strip():
            self.lines.append(self.now.rstrip())
        self.now = ""

    def comment(self, it, indent):
        self.end_line()
        self.lines.append(" " * indent + it.text)

    def token(self, at, indent, continued):
        source = self.source
        for it in source.before[at]:
            if it.kind == "own":
                self.comment(it, continued if self.lines_begun else indent)
            else:
                self.now += (" " if self.now.strip() else " " * indent) + it.text
        if not self.now.strip():
            self.now = " " * (continued if self.lines_begun else indent)
        elif source.before[at] and source.before[at][-1].kind == "inline":
            self.now += " "
        else:
            self.now += source.gap(at).replace("\n", " ")
        self.now += source.tokens[at].text
        self.lines_begun = True
        if source.behind[at]:
            self.now += "".join(" " + it.text for it in source.behind[at])
            self.end_line()

    def write(self, first, last, indent, breaks=(), continued=None, forced=()):
        """Tokens from a new line on, with line ends before some of `breaks` where the line would be too long."""
        continued = indent + 2 if continued is None else continued
        self.end_line()
        self.lines_begun = False
        stops = sorted(it for it in {*breaks, *forced} if first < it <= last)
        for at in range(first, last + 1):
            if at in stops and self.now.strip():
                until = next((it for it in stops if it > at), last + 1) - 1
                if at in forced or len(self.now) + len(self.source.gap(at)) + self.source.width(at, until) > WIDTH:
                    self.end_line()
            self.token(at, indent, continued)


class Layout:
    def __init__(self, source):
        self.source, self.sheet = source, Sheet(source)
        self.last_line = 0

    def signs(self, first, last, *texts):
        tokens = self.source.tokens
        return [at for at in range(first, last + 1) if tokens[at].text in texts and tokens[at].kind != "string"]

    def program(self):
        self.declarations(self.source.tree.declarations, 0)
        self.comments(self.source.before[-1], 0)
        self.sheet.end_line()
        return "\n".join(self.sheet.lines) + "\n" if self.sheet.lines else ""

    def comments(self, comments, indent):
        for it in comments:
            self.space(it.begin)
            self.sheet.comment(it, indent)
            self.last_line = it.end
        comments.clear()

    def space(self, line):
        """An empty line where there was one."""
        if self.last_line and line > self.last_line + 1 and self.sheet.lines and self.sheet.lines[-1]:
            self.sheet.end_line()
            self.sheet.lines.append("")

    def declarations(self, declarations, indent):
        source = self.source
        for it in declarations:
            before = source.before[it.first]
            own = [comment for comment in before if comment.kind == "own"]
            source.before[it.first] = [comment for comment in before if comment.kind != "own"]
            self.comments(own, indent)
            rest = source.before[it.first]
            self.space(rest[0].begin if rest else source.first_line[it.first])
            if self.fits(it.first, it.last, indent):
                self.sheet.write(it.first, it.last, indent)
            else:
                (self.rule if it.kind == "rule" else self.procedure)(it, indent)
            self.sheet.end_line()
            behind = source.behind[it.last]
            self.last_line = behind[-1].end if behind else source.last_line[it.last]

    def fits(self, first, last, indent):
        return indent + self.source.width(first, last) <= WIDTH and not self.source.is_broken(first, last)

    # ---- rules

    def rule(self, it, indent):
        deep = indent + 2
        head = it.left.first - 1
        self.sheet.write(it.first, head, indent, [at + 1 for at in self.signs(it.first, head, ",", ";")])
        self.graph(it.left, deep)
        self.sheet.write(it.left.last + 1, it.right.first - 1, deep)
        self.graph(it.right, deep)
        last = it.where - 1 if it.condition else it.last
        self.sheet.write(it.right.last + 1, last, deep, [at + 1 for at in self.signs(it.right.last + 1, last, ",")])
        if it.condition:
            self.sheet.write(it.where, it.last, deep, self.signs(it.where, it.last, "and", "or"))

    def graph(self, graph, indent):
        if self.fits(graph.first, graph.last, indent):
            self.sheet.write(graph.first, graph.last, indent)
            return
        bar = (graph.nodes[-1].last if graph.nodes else graph.first) + 1
        items = [it.first for it in graph.nodes + graph.edges]
        self.sheet.write(graph.first, bar - 1, indent, items[1:] if graph.nodes else [])
        self.sheet.write(bar, graph.last, indent, [it.first for it in graph.edges[1:]])

    # ---- procedures

    def procedure(self, it, indent):
        body = it.body
        if it.local:
            self.sheet.write(it.first, it.local[0].first - 1, indent)
            self.last_line = 0
            self.declarations(it.local, indent + 2)
            closing = it.local[-1].last + 1
            self.comments(self.source.before[closing], indent + 2)
            self.sheet.write(closing, it.last, indent, self.stops(closing, it.last))
        else:
            self.sheet.write(it.first, body.first - 1, indent)
            parts = body.parts if body.kind == "sequence" else [body]
            for at, part in enumerate(parts):
                last = part.last + (at + 1 < len(parts))
                self.sheet.write(part.first, last, indent + 2, self.stops(part.first, last), indent + 4)

    def stops(self, first, last):
        return [at + 1 for at in self.signs(first, last, ";", ",")] + self.signs(first, last, "then", "else", "or")


def set_in_lines(text, canonical):
    """The program in lines; None if its text and its canonical text do not go together. A comment before a
    parenthesis that is left out may stand alone then, so this is repeated until nothing changes."""
    try:
        parsed = read_program(canonical)
        for _ in range(6):
            before, text = text, Layout(Source(text, canonical, parsed)).program()
            if text == before:
                break
        return text
    except (Fault, IndexError):
        return None


def comments_of(text):
    return [it.text.replace("\r", "").rstrip() for it in tokens_of(text)[1]]


def main():
    names = sys.argv[1:]
    texts = []
    for name in names[:2]:
        with open(name, encoding="latin-1", newline="") as file:
            texts.append(file.read())
    made = set_in_lines(*texts)
    if made is None or comments_of(made) != comments_of(texts[0]):
        sys.exit("layout: the tokens of the program and of its canonical text do not go together; it was not changed")
    with open(names[2], "w", encoding="latin-1", newline="") as file:
        file.write(made)


if __name__ == "__main__":
    main()
