"""Reads rows of data, as crates/gp_rows/src/rows.rt writes what stands between backquotes."""
import re


def copy_of(piece, count, at):
    """A copy of a repeated piece."""
    numbers = {"%": at, "^": at + 1, "&": count - at, "$": count - at - 1}
    return "".join(str(numbers.get(sign, sign)) for sign in piece)


def written(field, names, shortens=False):
    """A field with what stands between backquotes written out, and of repeated pieces how often they stand."""
    out, notes = "", []
    for at, piece in enumerate(field.split("`")):
        count, star, repeated = piece.partition("*")
        if at % 2 == 0:
            out += piece
        elif star and count.isdigit():
            count = int(count)
            copies = [copy_of(repeated, count, it) for it in range(count)]
            if shortens and count > 4:
                copies[2:-1] = [re.sub(r"\S+(.*\S)?", "..", repeated)]
                if not set(repeated) & set("%^&$"):
                    notes.append(f"{count} times {repeated.strip()}")
            out += "".join(copies)
        elif re.fullmatch(r"x[0-9a-f]{2}", piece):
            out += chr(int(piece[1:], 16))
        elif piece:
            out += {"n": "\n", "t": "\t", "r": "\r"}[piece] if piece in ("n", "t", "r") else names[piece]
    return out, notes


def fields_of(file):
    """The fields of each row of a file, and the names that are defined above it."""
    names = {}
    for row in file.read_text(encoding="latin-1").splitlines():
        if row.startswith("`let "):
            name, _, text = row[len("`let "):].partition("` ")
            names[name] = written(text, names)[0]
        elif row and not row.startswith("//"):
            yield row.split(" @ "), names
