"""Completion by getopts_shell: its own output, and in bash, zsh and fish, each in a terminal.

Lines are typed, completed with a tab and run; a command of the same name then logs its arguments. Expected results are
computed here and by model.py, from the rules and not from the program.
"""

import os
import pty
import re
import select
import shlex
import time

import pytest
from conftest import ROOT, answer, need, run, script
from model import Group, Options

TABLE = """
-i|--input FILE  read this file
[-o|--output FILE]  write to FILE: a 'new' one
[-v|--verbose]..  say more, and \\more\\
[-c|--color [WHEN]]  colour the `output` $HOME
[-L FILE]..  add a folder
[--a:b]
[-h|--help]  print this help
"""
# For each option: whether it has brackets, its short and long name, its argument, and its description.
OPTIONS = re.findall(r"^(\[?)(?=-)(?:-(\w))?\|?(?:--([\w:]+))?( FILE| \[WHEN\])?(?:\](?:\.\.)?)?(?:  (.*))?$", TABLE, re.M)
KINDS = {"": "no", " FILE": "yes", " [WHEN]": "maybe"}
FILES = ["files"]
# The commands, and the flags with which each parses its arguments.
FLAGS = {"backup": "", "stops": "-s", "longs": "-l"}
# Files to complete.
NAMES = ["file.txt", "spa ce"]


def offers(before, word, flags=""):
    """The candidates for a word after these words: files, or options with their descriptions."""
    groups = [Group(short.encode(), long.encode(), KINDS[argument], "multi") for _, short, long, argument, _ in OPTIONS]
    long_only = "l" in flags
    readings = Options(groups, "s" in flags, long_only).readings([one.encode() for one in before], whole=True)
    if not readings or not word.startswith("-"):
        return FILES
    given, offered = {place for place, _, _ in readings[0][0]}, []
    for place, (opened, short, long, argument, description) in enumerate(OPTIONS):
        forms = [("--" + long, True), ("-" + long, long_only)] if long else []
        for form, is_long in forms + ([("-" + short, long_only)] if short else []):
            if place in given and not opened or form == "-" + long and not long_only:
                continue
            if form.startswith(word):
                offered.append(f"{form}\t{description}")
            elif is_long and argument and word.startswith(form + "="):
                offered.append("value")
    return offered


@pytest.mark.parametrize("flags", ["-s", "-l", "-sl", ""])
def test_completion_candidates(shell, flags):
    """The program's output at each word of these lines, and after the last."""
    for line in ["", "-", "--", "--i", "x --", "-- -", "-v --verb", "-v -v", "-i -", "-i", "-ix --", "--input --",
                 "--input -- --", "--input= --in", "-c --", "-c x -", "--color --c", "--output=f", "--verbose=",
                 "--color=a=b", "--nope -", "-vc -", "-o=x", "-L x -L", "-input -", "-input x -", "-help --h",
                 "-output=x", "- -", "x", "--a", "-hvi - --"]:
        words = [*line.split(), ""]
        for at, word in enumerate(words):
            said = run(shell, *flags.split(), "--complete-words", "zsh", "backup", TABLE, *words[:at + 1])
            assert said == ("".join(f"{one}\n" for one in offers(words[:at], word, flags)), ""), (line, at)


@pytest.fixture
def room(shell, tmp_path):
    """A folder with the program and scripts that log their arguments in `bin`, and files to complete in `here`."""
    for folder in ("bin", "here", "site"):
        (tmp_path / folder).mkdir()
    (tmp_path / "bin/getopts_shell").symlink_to(shell)
    for name in [*FLAGS, "notes"]:
        script(tmp_path / "bin" / name, '#!/bin/sh\nprintf "%s\\0" "$@" >>"$LOG"\nprintf "\\001" >>"$LOG"\n')
    for name in NAMES:
        (tmp_path / "here" / name).write_text("")
    return tmp_path


# A name and a table with special characters.
NAME, ANY = "it's \\ a; $(touch ran) `touch ran`", "[-a]  \\ ' \\' $(touch ran) `touch ran`\\"
BASH = "COMP_LINE='x ' COMP_POINT=2 COMP_WORDS=(x '') COMP_CWORD=1 COMP_TYPE=9; _getopts_shell_offer "


@pytest.mark.parametrize("name, before, ask", [
    ("bash", "", BASH + shlex.quote(NAME)),
    ("zsh", "compdef() { call=$1; }\n", "CURRENT=2 words=(x '') PREFIX=; eval $call"),
    ("fish", "function complete; set -g call $argv[-1]; end\n", "function commandline; echo x; end; eval echo $call")])
def test_names_and_tables_with_special_characters(room, name, before, ask):
    """The names and tables reach the program unchanged, and the shell runs nothing in them."""
    need(name)
    code, _ = run(room / "bin/getopts_shell", "--complete", name, NAME, ANY)
    (room / "bin/getopts_shell").unlink()
    script(room / "bin/getopts_shell", '#!/bin/sh\nprintf "%s\\n" "$@" >"$HOME/words"\n')
    env = {"PATH": f"{room}/bin:{os.environ['PATH']}", "HOME": str(room)}
    answer(name, "-c", before + code + ask, env=env, cwd=room)
    assert (room / "words").read_text().startswith(f"--complete-words\n{name}\n{NAME}\n{ANY}\n")
    assert not (room / "ran").exists()


@pytest.mark.parametrize("name, named", [("backup", True), ("back-up_2.sh", True), ("a\n: ran", False), ("a b", False),
                                         ("-k", False)])
def test_zsh_compdef_line(shell, name, named):
    code, _ = run(shell, "--complete", "zsh", "--", name, ANY)
    assert code.startswith(f"#compdef {name}\n" if named else "") and code.startswith("#") == named


# ---- in a terminal

class Terminal:
    """A shell in a terminal that has read the completion code of each script, or finds it as files in zsh's `$fpath`.
    A log has the arguments of the commands that were run."""

    def __init__(self, name, room, files):
        home = room / ("config/fish/config.fish" if name == "fish" else f".{name}rc")
        home.parent.mkdir(parents=True, exist_ok=True)
        for command, flags in FLAGS.items():
            code, errors = run(room / "bin/getopts_shell", *flags.split(), "--complete", name, command, TABLE)
            assert not errors
            (room / "site" / f"_{command}").write_text(code)
        code, _ = run("sh", ROOT / "bindings/shell/examples/notes", "--completion", name,
                      env={"PATH": f"{room}/bin:{os.environ['PATH']}"})
        (room / "site/_notes").write_text(code)
        read = 'for file in "$HOME"/site/*; do eval "$(cat "$file")"; done\n'
        home.write_text({
            "bash": "set -u\nPS1='> '\nbind 'set show-all-if-ambiguous on'\nbind 'set completion-query-items 0'\n"
                    f"bind 'set page-completions off'\nbind 'set enable-bracketed-paste off'\n{read}",
            "zsh": f"PS1='> '\n{'fpath=($HOME/site $fpath)' * files}\nautoload -Uz compinit\n"
                   f"compinit -u -d $HOME/dump\n{read * (not files)}",
            "fish": "set -g fish_greeting\nset -g fish_autosuggestion_enabled 0\ncat $HOME/site/* | source\n"}[name])
        words = ["bash", "--noprofile", "--rcfile", str(home)] if name == "bash" else [name]
        env = {"PATH": f"{room}/bin:{os.environ['PATH']}", "HOME": str(room), "XDG_CONFIG_HOME": str(room / "config"),
               "XDG_DATA_HOME": str(room / "data"), "TERM": "vt100" if name != "fish" else "xterm",
               "LC_ALL": "C.UTF-8", "LOG": str(room / "log"), "COLUMNS": "120"}
        self.log, self.seen, self.text = room / "log", 0, b""
        self.log.write_bytes(b"")
        self.process, self.fd = pty.fork()
        if self.process == 0:
            os.chdir(room / "here")
            os.execvpe(name, [*words, "-i"], env)

    def read(self, seconds):
        while select.select([self.fd], [], [], seconds)[0]:
            try:
                self.text += os.read(self.fd, 65536)
            except OSError:
                return

    def type(self, keys):
        """Types keys that run a command. Returns its arguments, and what the terminal showed."""
        self.text, end = b"", time.monotonic() + 600
        os.write(self.fd, keys.encode())
        while time.monotonic() < end:
            self.read(0.02)
            lines = self.log.read_bytes().split(b"\x01")[:-1]
            if len(lines) > self.seen:
                self.seen = len(lines)
                self.read(0.05)
                return lines[-1].decode().split("\0")[:-1], self.text.decode(errors="replace")
        return None, self.text.decode(errors="replace")

    def close(self):
        os.write(self.fd, b"\x04exit\r")
        os.close(self.fd)
        os.waitpid(self.process, 0)


# The arguments typed before the tab, which completes the last one.
LINES = {
    "backup": ["--inp", "-v --verb", "--he", "-h --he", "x --inp", "-i --inp", "-i x --inp", "--input=x --outp",
               "--input=x --inp", "-- --inp", "fi", "-o fi", "--output=fi", "--output=sp", "--verbose=fi", "--color=fi",
               "-c --inp", "--input 'a b' --outp", "--a", "--a:", "-vi", "x\\ y --verb", "--output=x=fi",
               "--nope --inp", "--input=\"a b\" --outp", "-- fi"],
    "stops": ["--inp", "x --inp", "-v x --inp", "x fi", "-o x --inp"],
    "longs": ["-inp", "--inp", "-input x -outp", "-output=fi", "-input -outp", "-v -verb"],
}
# Lines of the example with subcommands, and their arguments after completion.
NOTES = {"ad": ["add"], "--fi": ["--file"], "-f fi": ["-f", "file.txt"], "add --t": ["add", "--tag"],
         "add x -tb --he": ["add", "x", "-tb", "--help"], "list --nu": ["list", "--number"], "list --t": ["list", "--t"],
         "add fi": ["add", "file.txt"], "add -h --he": ["add", "-h", "--help"],
         "-f x add --t": ["-f", "x", "add", "--t"]}


def words_after(name, typed, flags):
    """The arguments of a typed line after completion. The last one changes if at most one candidate fits: an option is
    inserted with a space, a file after the text before it."""
    *before, word = shlex.split(typed)
    offered = offers(before, word, flags)
    if offered in (FILES, ["value"]):
        # (bash itself completes files after the last `=` of a word.)
        place = word.rfind("=") if name == "bash" else word.find("=") if offered == ["value"] else -1
        fits = [word[:place + 1] + file for file in NAMES if file.startswith(word[place + 1:])]
    else:
        forms = [line.split("\t")[0] for line in offered]
        fits = [os.path.commonprefix(forms)] if forms else []
    return before + (fits if len(fits) == 1 else [word])


@pytest.mark.parametrize("name, files", [("bash", False), ("zsh", False), ("zsh", True), ("fish", False)])
def test_completion_in_a_terminal(room, name, files):
    need(name)
    terminal = Terminal(name, room, files)
    terminal.type("backup ready\r")
    lines = {f"{command} {typed}": words_after(name, typed, FLAGS[command]) for command in LINES for typed in LINES[command]}
    # The example's code is for `eval`, not for a file.
    lines |= {f"notes {typed}": words for typed, words in NOTES.items() if not files}
    for line, words in lines.items():
        got, shown = terminal.type(f"{line}\t\r")
        assert got == words, shown
        assert not re.search("command not found|unbound|getopts_shell", shown), line
    # A script called by its path.
    got, shown = terminal.type(f"{room}/bin/backup --inp\t\r")
    assert got == ["--input"], shown
    # If several options fit, each is shown with its description from the table, unless it may be given only once.
    got, shown = terminal.type("backup -hi x -\t\r")
    assert got == ["-hi", "x", "-"], shown
    shown = " ".join(re.sub(r"\x1b\[[0-9;?]*[a-zA-Z]|\x1b\(B|\x0f", "", shown).split())
    for line in offers(["-hi", "x"], "-"):
        form, description = line.split("\t")
        assert form in shown and " ".join(description.split()) in shown
    assert "--help" in shown and "--input" not in shown
    terminal.close()
