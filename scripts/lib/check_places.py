"""What scripts/check-why runs: on each row with a fault, the reader of scripts/why has to find that fault and its
place."""
import re
import sys
from pathlib import Path

import gp2_clauses
import why_fault
from gp2_text import Fault, Text, read_host, read_program, rules_of
from rows import fields_of, written

LINES = {"lines": "{}", "bytes": "{}", "scopes": "program: {}", "rules": "program: rule r: {}"}


def programs():
    """Texts of programs, each with the line of its fault, or with nothing."""
    for file in sorted(Path("scripts/rows").glob("*.rows")):
        kind = file.stem.split("_")[0]
        if kind not in LINES:
            continue
        for fields, names in fields_of(file):
            text, answer = (written(it, names)[0] for it in fields)
            answer = answer.rstrip("\n")
            line = "" if answer in ("", "accepted") else LINES[kind].format(answer)
            yield f"{file}: {fields[0][:200]}", ("Main = skip " if kind == "rules" else "") + text, line


def hosts():
    for fields, names in fields_of(Path("crates/gp_cases/data/hosts.rows")):
        if len(fields) == 2:
            text, answer = (written(it, names)[0] for it in fields)
            answer = answer.rstrip("\n")
            line = "" if answer.startswith("[") else "host: " + re.sub("^Syntax ", "Syntax line ", answer)
            yield f"hosts: {fields[0][:200]}", text, line


def own_clause(text):
    """The first fault of a rule that is found here."""
    tokens, _, tree = read_program(text.text)
    for rule in rules_of(tree.declarations):
        for fault in gp2_clauses.Rules(tokens, rule).faults():
            return fault.name
    return None


def wrong(text, line, is_host):
    """What is wrong with what is found for this text."""
    if not line:
        try:
            (read_host if is_host else read_program)(text.text)
        except Fault as fault:
            return f"refused here: {fault.name}"
        return None if is_host else own_clause(text)
    head, _, sentences = why_fault.explained(text, line, is_host)
    if why_fault.NO_PLACE in sentences:
        return "no place"
    number = re.search(r" line (\d+)$", line)
    if number and f"text:{number[1]}:" not in head:
        return f"another line: {head}"
    return None if f": {line.split(': ')[-1].split()[0]}" in head else f"another fault: {head}"


def main():
    counts, failures = [0, 0], []
    for at, (rows, is_host) in enumerate(((programs(), False), (hosts(), True))):
        for what, text, line in rows:
            counts[at] += 1
            said = wrong(Text("text", text.encode("latin-1")), line, is_host)
            if said:
                failures.append(f"check-why: {what}: {line}: {said}")
    print("\n".join(failures) if failures else f"and {counts[0]} programs and {counts[1]} hosts")
    return len(failures) > 0


sys.exit(main())
