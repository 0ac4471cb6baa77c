#!/usr/bin/env python3
"""Types lines into a real shell, and prints what it makes of them: completion/typed.py SHELL SCRIPT FOLDER < LINES

SHELL is bash or zsh, SCRIPT has the completion, and FOLDER is where the shell runs, with the programs in bin. A line `$ LINE` is typed into zsh, and
the words are printed that may stand there, a line each. `> LINE` and `SHELL> LINE` are typed, then the tabulator, and the line is printed that stands
there then. `@ NAME` is the name of a package of the database in h: four of its letters are typed, bare, behind " and behind ', then the tabulator and
the end of the line, and where the program doesn't get that name, what it gets is printed. FOLDER/out is where the shell and its programs write.
It waits for each answer half a minute at most; a hundred lines take five seconds. completion/try.sh --typed runs it.
"""
import os
import pty
import select
import shlex
import sys
import termios
import time

BASH = r"""bind 'set enable-bracketed-paste off'; bind 'set bell-style none'; HISTFILE=
dump() { printf '%s\nEND\n' "$READLINE_LINE" >> OUT; READLINE_LINE= READLINE_POINT=0; }
bind -x '"\C-x\C-d": dump'
. SCRIPT
"""
ZSH = r"""unsetopt zle_bracketed_paste 2> /dev/null; unset zle_bracketed_paste; fpath=(SCRIPT_FOLDER $fpath)
autoload -Uz compinit; compinit -u -D; zstyle ':completion:*' list-prompt ''; LISTMAX=9999; setopt no_list_beep no_beep
words() { local -a matched; builtin compadd -O matched "$@"; (( $#matched )) && print -rl -- $matched >> OUT; }
capture() { compadd() { words "$@"; }; _files() { [[ $1 == -/ ]] && print -r '<folders>' >> OUT || print -r '<files>' >> OUT; }
  _main_complete; unfunction compadd _files; autoload -Uz _files; print END >> OUT; }
zle -C capture complete-word capture; bindkey '^X^T' capture
dump() { print -r -- "$BUFFER" >> OUT; print END >> OUT; BUFFER=; }; zle -N dump; bindkey '^X^D' dump
"""
COMMANDS = {"bash": ["bash", "--norc", "--noprofile", "-i"], "zsh": ["zsh", "-f", "-i"]}
WORDS, TAB, LINE, RETURN, ERASE = "\x18\x14", "\t", "\x18\x04", "\r", "\x15"


class Shell:
    """An interactive shell in a terminal of its own."""

    def __init__(self, shell, script, folder):
        self.out = os.path.join(folder, "out")
        setup = {"bash": BASH, "zsh": ZSH}[shell]
        for word, path in (("OUT", self.out), ("SCRIPT_FOLDER", os.path.dirname(script)), ("SCRIPT", script)):
            setup = setup.replace(word, shlex.quote(path))
        with open(os.path.join(folder, "setup"), "w", encoding="utf-8") as file:
            file.write(setup)
        child, self.terminal = pty.fork()
        if child == 0:
            os.chdir(folder)
            os.environ.update(PS1="", TERM="dumb", HOME=folder, PATH=f"{folder}/bin:{os.environ['PATH']}")
            os.execvp(shell, COMMANDS[shell])
        self.types(f". {shlex.quote(folder)}/setup; echo END >> {shlex.quote(self.out)}{RETURN}")

    def types(self, keys):
        """Types keys, and gives what the shell or a program wrote meanwhile, up to its mark."""
        end = time.monotonic() + 30
        # (while it runs a program, the terminal itself reads lines, and takes a key of these for the end of the input)
        while termios.tcgetattr(self.terminal)[3] & termios.ICANON and time.monotonic() < end:
            time.sleep(0.001)
        with open(self.out, "w", encoding="utf-8"):
            pass
        os.write(self.terminal, keys.encode())
        while time.monotonic() < end:
            if select.select([self.terminal], [], [], 0.01)[0]:
                os.read(self.terminal, 65536)
            with open(self.out, encoding="utf-8", errors="surrogateescape") as file:
                written = file.read()
            if written.endswith("END\n"):
                return written[:-4]
        sys.exit(f"typed.py: no answer to {keys!r}")


def names_of(shell, name):
    """What the program gets instead of a name that is completed, by how it was begun."""
    for quote in ("", '"', "'"):
        got = shell.types(f"rpm --dbpath h -q {quote}{name[:4]}{TAB}{RETURN}")
        if got != f"--dbpath\nh\n-q\n{name}\n":
            yield f"behind {quote or 'nothing'}: {got!r}\n"


def main():
    name, script, folder = sys.argv[1:]
    shell = Shell(name, os.path.abspath(script), os.path.abspath(folder))
    for line in sys.stdin:
        line = line.rstrip("\n")
        kind, _, typed = line.partition(" ")
        print(line)
        if kind == "$":
            print(end=shell.types(typed + WORDS))
            os.write(shell.terminal, ERASE.encode())
        elif kind == "@":
            print(end="".join(names_of(shell, typed)))
        else:
            print(end=shell.types(typed + TAB + LINE))


if len(sys.argv) != 4:
    sys.exit(__doc__)
main()
