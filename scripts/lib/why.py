"""What scripts/why runs: `why.py NAME WORD..`, where NAME is how the script is called."""
import os
import sys

import why_bound
import why_fault
import why_match
from why_gp2 import Gp2, Stop

# For each command: how many words it takes, from and to, its options, and what it does.
COMMANDS = {
    "fault": (1, 2, ("--bound", "--seed", "--short"), why_fault.fault),
    "match": (2, 3, ("--at", "--bound", "--seed", "--seconds"), why_match.match),
    "bound": (2, 2, ("--bound", "--seed"), why_bound.bound),
}


def usage(said=""):
    if said:
        print(f"why: {said}", file=sys.stderr)
    print(os.environ["WHY_USAGE"], file=sys.stderr)
    sys.exit(2)


def read_words(words):
    """The command, its words, and its options: `bound` and `seed` as words for gp2."""
    if not words or words[0] not in COMMANDS:
        usage(f"`{words[0]}` is not one of the commands fault, match and bound" if words and words[0][0] != "-" else "")
    least, most, allowed, run = COMMANDS[words[0]]
    given, files, rest = {}, [], words[1:]
    while rest:
        word = rest.pop(0)
        name, sign, value = word.partition("=")
        if word == "--":
            files += rest
            break
        if not word.startswith("--"):
            files.append(word)
        elif name not in allowed:
            usage(f"`{words[0]}` has no option `{name}`")
        elif name == "--short":
            given["short"] = True
        else:
            value = value if sign else rest.pop(0) if rest else ""
            if not (value.isdigit() and value.isascii() or name == "--at" and value == "end"):
                usage(f"`{name} {value}`: a number is wanted" + (", or `end`" if name == "--at" else ""))
            given[name[2:]] = value
    if not least <= len(files) <= most:
        usage(
            f"`{words[0]}` takes {least if least == most else f'{least} or {most}'} words besides its "
            f"options, and not {len(files)}"
        )
    options = {it: [f"--{it}", given[it]] if it in given else [] for it in ("bound", "seed")}
    return (
        run,
        files,
        {**options, "short": "short" in given, "at": given.get("at"), "seconds": int(given.get("seconds", 60))},
    )


def main():
    run, files, options = read_words(sys.argv[1:])
    try:
        sys.exit(run(Gp2(os.environ["GP2_PROGRAM"]), options, files))
    except Stop as stop:
        print(stop.line if stop.line.startswith(("program:", "host:")) else f"why: {stop.line}", file=sys.stderr)
        sys.exit(stop.status)
    except BrokenPipeError:
        sys.exit(1)
    except KeyboardInterrupt:
        sys.exit(130)


main()
