"""Types command lines into a shell and tells what it completes: `typed.py bash|zsh|fish ROOM`, with a line on
standard input for each command line. ROOM is a folder in which they are typed. Printed is, for each line, what is
offered, sorted, and with one blank between. bash and zsh run at a terminal, and get the key that inserts all
completions; fish is asked for them."""
import os
import pty
import re
import select
import subprocess
import sys
import tempfile
import time
from pathlib import Path

COMPLETIONS = Path(__file__).resolve().parent.parent.parent / "completions"
SHOW = """gp2() { printf '<%s>' "$@"; echo; }
"""
BASH = SHOW + f"""PS1= PS2=
bind 'set enable-bracketed-paste off' 2>/dev/null
bind 'set bell-style none'
bind '"\\C-xa": insert-completions'
. {COMPLETIONS}/gp2.bash
"""
ZSH = SHOW + f"""PS1= PS2= RPS1= PROMPT_EOL_MARK=
unsetopt beep zle_bracketed_paste promptsp 2>/dev/null; unset zle_bracketed_paste
fpath=({COMPLETIONS} $fpath)
autoload -Uz compinit; compinit -u -D
zle -C all-matches complete-word _generic
bindkey '^Xa' all-matches
zstyle ':completion:all-matches:*' completer _all_matches _complete
zstyle ':completion:all-matches:*' insert true
"""


class Terminal:
    def __init__(self, words, room):
        self.pid, self.end = pty.fork()
        if self.pid == 0:
            os.chdir(room)
            os.environ.update(TERM="dumb", HOME=room, HISTFILE="/dev/null")
            os.execvp(words[0], words)

    def read_until(self, mark, seconds=10):
        seen, end = "", time.monotonic() + seconds
        while not re.search(mark, seen):
            ready = select.select([self.end], [], [], max(0, end - time.monotonic()))[0]
            if not ready:
                raise TimeoutError(f"nothing more came behind {seen[-400:]!r}")
            seen += os.read(self.end, 65536).decode("utf-8", "replace")
        return seen

    def write(self, text):
        os.write(self.end, text.encode())


def typed(words, start, lines, room):
    with tempfile.NamedTemporaryFile("w") as file:
        file.write(start)
        file.flush()
        terminal = Terminal(words, room)
        terminal.write(f". {file.name}; echo rea''dy\r")
        terminal.read_until(r"ready\r?\n")
    for line in lines:
        # What is offered replaces the word that is typed; behind it stands a mark.
        terminal.write(f"{line}\x18a")
        time.sleep(0.15)
        terminal.write(" @end\r")
        seen = terminal.read_until(r"<@end>\r?\n")
        yield re.findall(r"<([^<>]*)>", seen)[:-1]
    terminal.write("exit\r")


def offered(line, shown):
    """The words that were not typed."""
    before = line.split()[1:]
    unfinished = before.pop() if before and not line.endswith(" ") else ""
    rest = [it.rstrip("/ ") for it in shown[len(before):]]
    return sorted({it for it in rest if it != unfinished or Path(unfinished).exists()} - {""})


def fish_offers(line, room, home):
    told = subprocess.run(
        ["fish", "-c", f"source {COMPLETIONS}/gp2.fish; complete -C '{line}'"],
        cwd=room,
        capture_output=True,
        text=True,
        env={**os.environ, "HOME": home, "XDG_CONFIG_HOME": home, "XDG_DATA_HOME": home},
    )
    if told.stderr:
        return [told.stderr]
    return sorted({it.split("\t")[0].rstrip("/").replace("\\ ", " ") for it in told.stdout.splitlines()})


def main():
    shell, room = sys.argv[1:]
    lines = [it.rstrip("\n") for it in sys.stdin]
    if shell == "fish":
        with tempfile.TemporaryDirectory() as home:
            for line in lines:
                print(" ".join(fish_offers(line, room, home)))
        return
    words, start = (["bash", "--norc", "--noprofile", "-i"], BASH) if shell == "bash" else (["zsh", "-f", "-i"], ZSH)
    for line, shown in zip(lines, typed(words, start, lines, room)):
        print(" ".join(offered(line, shown)))


main()
