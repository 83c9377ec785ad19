#!/usr/bin/env python3
"""Writes the man pages of faxtool, and its completion for bash, zsh and fish, from the help of a built program:

    docs/man/make.py PROGRAM            writes docs/man/*.1 and docs/completion/
    docs/man/make.py PROGRAM --check    writes nothing; names each file that would be another, and ends with status 1 then

The help comes from the program's table of commands, so each command, option, file, default and value is there once. Of a page the
version is that of the file VERSION, the date that of the last dated entry of CHANGELOG.md, and the examples are the commands of the
README's table, which the gate runs. It needs Python's standard library alone."""

import re
import subprocess
import sys
import textwrap
from pathlib import Path

TOP = Path(__file__).resolve().parent.parent.parent
OPTION = re.compile(r"^ +(?:-h, )?(--[a-z0-9-]+)(?: <([^>]*)>)?  +(\S.*)$")
FILE = re.compile(r"^  ([<\[])([A-Z]+)[>\]](\.\.\.)?  +(\S.*)$")
COMMAND = re.compile(r"^  ([a-z]+)  +(\S.*)$")
FAULT = re.compile(r"^ +(\d+)  +(\S.*)$")
EXAMPLE = re.compile(r"^\| `(faxtool ([a-z]+)[^`]*)` \| (.*) \|$", re.M)

# What a shell suggests for an option whose value may be any number or rate.
SUGGESTED = {
    "--width": "1728 2048 2432",
    "--data": "8",
    "--lose": "1% 5% 10%",
    "--spoil": "1% 5%",
    "--busy": "10% 50%",
    "--seed": "1",
    "--calls": "3",
    "--times": "100 1000",
    "--limit": "2 10",
    "--from": "2",
    "--mode": "0600 0640",
    "--most-pages": "100",
    "--most-octets": "100000000",
    "--most-seconds": "3600",
    "--t1": "35000",
    "--t2": "7000",
    "--t4": "3000",
    "--t5": "60000",
}


class Argument:
    """An option or the name of a file, as a line of the help shows it."""

    def __init__(self, name, shown, text, needed, many=False):
        self.name, self.shown, self.needed, self.many = name, shown, needed, many
        default = re.search(r" \[default: ([^\]]*)\]", text)
        values = re.search(r" \[possible values: ([^\]]*)\]", text)
        self.default = default and default[1]
        self.values = values[1].split(", ") if values else []
        self.text = re.sub(r" \[(default|possible values): [^\]]*\]", "", text)

    def kind(self):
        """What its value is: one of some words, a folder, a file, or another text."""
        if self.values or self.name in SUGGESTED:
            return "words"
        if self.text.startswith("The folder"):
            return "folder"
        return "file" if self.text.startswith("The file") else "text"

    def words(self):
        """The words that a shell suggests."""
        return self.values or SUGGESTED.get(self.name, "").split()


class Help:
    """What a help says: its first line, its use, and the lines of each part."""

    def __init__(self, program, words):
        ran = subprocess.run([program, *words, "--help"], capture_output=True, text=True, stdin=subprocess.DEVNULL, timeout=60)
        if ran.returncode != 2:
            sys.exit(f"make.py: {' '.join(words)} --help ended with status {ran.returncode}, and not 2")
        lines = ran.stderr.split("\n")
        self.about = lines[0]
        # the program's name there is that of its file
        self.use = re.sub(r"^Usage: \S+", "faxtool", next(line for line in lines if line.startswith("Usage: ")))
        parts = re.split(r"^(Commands|Arguments|Options):\n", ran.stderr, flags=re.M)
        self.parts = {name: text.split("\n\n")[0] for name, text in zip(parts[1::2], parts[2::2])}
        self.after = parts[-1].split("\n\n", 1)[1] if "\n\n" in parts[-1] else ""
        self.files = [Argument(row[2], row[2], row[4], row[1] == "<", bool(row[3])) for row in self.rows("Arguments", FILE)]
        self.options = [Argument(row[1], row[2], row[3], f" {row[1]} " in f"{self.use} ") for row in self.rows("Options", OPTION)]
        self.commands = [(row[1], row[2]) for row in self.rows("Commands", COMMAND)]

    def rows(self, part, shape):
        """The rows of a part, each of which must have this shape."""
        rows = [(line, shape.match(line)) for line in self.parts.get(part, "").split("\n") if line]
        for line, row in rows:
            if row is None:
                sys.exit(f"make.py: a line of the help that can't be read: {line}")
        return [row for _, row in rows]


# ---- man pages


def plain(text):
    """A text for a man page: what stands between backquotes is bold."""
    text = text.replace("\\", "\\e").replace("-", "\\-")
    return re.sub(r"`([^`]*)`", r"\\fB\1\\fP", text)


def filled(text):
    """Lines of a man page, none of which is taken for a request."""
    lines = textwrap.wrap(plain(text), 78, break_long_words=False, break_on_hyphens=False)
    return "".join(f"\\&{line}\n" if line[0] in ".'" else f"{line}\n" for line in lines)


def synopsis(use):
    """The use: words of the program are bold, and what stands for a value is in italics."""
    shown = re.sub(r"<([A-Z]+)>|\[([A-Z]+)\]|(\.\.\.)|([a-z0-9-]+)", shown_word, use)
    return shown.replace(" ", "\\ ", 1) + "\n"


def shown_word(word):
    """A word of the use."""
    if word[1]:
        return f"\\fI{word[1]}\\fP"
    if word[2]:
        return f"[\\fI{word[2]}\\fP]"
    return word[3] or f"\\fB{plain(word[4])}\\fP"


def closed(text):
    """The sentence with its end."""
    return text if text.endswith(".") else f"{text}."


def option_rows(options):
    """The list of options."""
    rows = ""
    for option in options:
        name = "\\fB\\-h\\fP, \\fB\\-\\-help\\fP" if option.name == "--help" else f"\\fB{plain(option.name)}\\fP"
        shown = f" \\fI{option.shown}\\fP" if option.shown else ""
        text = "Prints the help, on standard error, and ends with status 2" if option.name == "--help" else option.text
        more = " Required." if option.needed else ""
        more += f" Values: {', '.join(option.values)}." if option.values else ""
        more += f" Default: {option.default}." if option.default else ""
        rows += f".TP\n{name}{shown}\n{filled(closed(text) + more)}"
    return rows


def file_rows(files):
    """The list of files."""
    return "".join(f".TP\n\\fI{file.name}\\fP\n{filled(closed(file.text))}" for file in files)


def page(name, about, parts):
    """A man page of these parts, each a heading and its lines."""
    version = (TOP / "VERSION").read_text().strip()
    date = re.search(r"^## (?:.*, )?(\d{4}-\d\d-\d\d)$", (TOP / "CHANGELOG.md").read_text(), re.M)[1]
    head = f'.\\" Written by docs/man/make.py from the help of the program.\n.TH {name.upper()} 1 {date} "faxtool {version}"\n'
    about = about[0].lower() + about[1:]
    shown = [("NAME", filled(f"{name} @ {about}").replace("@", "\\-", 1)), *parts]
    return head + "".join(f".SH {heading}\n{text}" for heading, text in shown if text)


def examples(command):
    """The examples of the README's table: of one command, or of all."""
    rows = [row for row in EXAMPLE.finditer((TOP / "README.md").read_text()) if command in (None, row[2])]
    told = [(row[1], re.sub(r"\[([^\]]*)\]\([^)]*\)", r"\1", row[3])) for row in rows]
    return "".join(f".TP\n\\fB{plain(line)}\\fP\n{filled(text)}" for line, text in told)


STATUS = (
    ".TP\n0\nIt is done.\n.TP\n1\n"
    + filled("A fault of data, files or memory, which is named on standard error; or something that was asked for is missing.")
    + ".TP\n2\nThe words are not a command, or ask for help.\n"
)
ENVIRONMENT = ".TP\n\\fBFAXTOOL_EXPLAIN\\fP\n" + filled("Where it is `1`, each fault is explained in words too, as with --explain.")


def also(names, own):
    """The other pages."""
    shown = [f".BR {plain(name)} (1)" for name in sorted(names) if name != own]
    return ",\n".join(shown) + "\n"


def main_page(top, names):
    """The page of the program."""
    use = "A file named `-` is standard input or output, and `./-` a file of that name. Each command has a page of its own."
    commands = "".join(
        f".TP\n\\fB{name}\\fP\n{filled(closed(about))}" for name, about in top.commands if name != "help"
    )
    head, *lines = top.after.rstrip("\n").split("\n")
    faults = [FAULT.match(line) for line in lines]
    rows = "".join(f".TP\n{row[1]}\n{filled(closed(row[2][0].upper() + row[2][1:]))}" for row in faults if row)
    return page("faxtool", top.about, [
        ("SYNOPSIS", "\\fBfaxtool\\fP \\fICOMMAND\\fP [\\fIOPTION\\fP ...] [\\fIFILE\\fP ...]\n.br\n\\fBfaxtool\\fP \\fICOMMAND\\fP "
         "\\fB\\-\\-help\\fP\n"),
        ("DESCRIPTION", filled(f"{closed(top.about)} {use}")),
        ("COMMANDS", commands),
        ("OPTIONS", option_rows(top.options)),
        ("ENVIRONMENT", ENVIRONMENT),
        ("EXIT STATUS", STATUS),
        ("FAULTS", filled(head.removesuffix(":") + ".") + rows),
        ("EXAMPLES", examples(None)),
        ("SEE ALSO", also(names, "faxtool")),
    ])


def command_page(name, told, names):
    """The page of a command."""
    explains = any(option.name == "--explain" for option in told.options)
    return page(f"faxtool-{name}", told.about, [
        ("SYNOPSIS", synopsis(told.use)),
        ("DESCRIPTION", filled(closed(told.about))),
        ("FILES", file_rows(told.files)),
        ("OPTIONS", option_rows(told.options)),
        ("ENVIRONMENT", ENVIRONMENT if explains else ""),
        ("EXIT STATUS", STATUS),
        ("EXAMPLES", examples(name)),
        ("SEE ALSO", also(names, f"faxtool-{name}")),
    ])


# ---- completion

BASH = """\
# Completion of faxtool's commands, options and files in bash. Load it by `. faxtool.bash`, or put it as `faxtool` into
# ~/.local/share/bash-completion/completions. Written by docs/man/make.py from the help of the program.

# The options of a command.
_faxtool_options() {
    case $1 in
@OPTIONS@    esac
}

# The values of an option, and nothing where it has none or is the name of a file.
_faxtool_values() {
    case $1 in
@VALUES@    esac
}

_faxtool() {
    local word=${COMP_WORDS[COMP_CWORD]} before=${COMP_WORDS[COMP_CWORD - 1]} values
    COMPREPLY=()
    if [ "$COMP_CWORD" = 1 ]; then
        mapfile -t COMPREPLY < <(compgen -W "@COMMANDS@ help --help" -- "$word")
        return
    fi
    # bash takes --code=mh as three words
    [ "$word" != = ] || word=
    [ "$before" != = ] || before=${COMP_WORDS[COMP_CWORD - 2]}
    values=$(_faxtool_values "$before")
    if [ -n "$values" ]; then
        mapfile -t COMPREPLY < <(compgen -W "$values" -- "$word")
    elif [ "${COMP_WORDS[1]}" = help ]; then
        mapfile -t COMPREPLY < <(compgen -W "@COMMANDS@" -- "$word")
    elif [ "${word#-}" != "$word" ]; then
        mapfile -t COMPREPLY < <(compgen -W "$(_faxtool_options "${COMP_WORDS[1]}")" -- "$word")
    else
        mapfile -t COMPREPLY < <(compgen -f -- "$word")
    fi
}

complete -o filenames -F _faxtool faxtool
"""

ZSH = """\
#compdef faxtool
# Completion of faxtool's commands, options and files in zsh. Put it as `_faxtool` into a folder of `fpath`. Written by docs/man/make.py
# from the help of the program.

_faxtool() {
    local state line
    local -a commands
    commands=(
@COMMANDS@    )
    _arguments -C '(- :)--help[Print help]' '1: :->command' '*:: :->argument'
    case $state in
    command) _describe -t commands command commands ;;
    argument)
        case $line[1] in
@ARGUMENTS@        help) _describe -t commands command commands ;;
        esac
        ;;
    esac
}

_faxtool "$@"
"""

FISH = """\
# Completion of faxtool's commands, options and files in fish. Put it into ~/.config/fish/completions. Written by docs/man/make.py from
# the help of the program.

complete -c faxtool -n __fish_use_subcommand -f
complete -c faxtool -n __fish_use_subcommand -l help -d 'Print help'
"""


def option_values(helps):
    """The words of each option, of whichever command it is."""
    values = {}
    for told in helps.values():
        for option in told.options:
            known = values.setdefault(option.name, [])
            known += [word for word in option.words() if word not in known]
    for name in SUGGESTED:
        if name not in values:
            sys.exit(f"make.py: no command has {name}")
    return {name: words for name, words in values.items() if words}


def bash(helps):
    """The completion for bash."""
    options = "".join(f"        {name}) echo {' '.join(option.name for option in told.options)} ;;\n" for name, told in helps.items())
    options += "        *) echo --help ;;\n"
    values = "".join(f"        {name}) echo {' '.join(words)} ;;\n" for name, words in option_values(helps).items())
    return BASH.replace("@OPTIONS@", options).replace("@VALUES@", values).replace("@COMMANDS@", " ".join(helps))


def quoted(text):
    """A text between single quotes."""
    return text.replace("'", "'\\''")


def zsh_action(argument):
    """What completes a value in zsh."""
    kind = argument.kind()
    return {"words": f"({' '.join(argument.words())})", "folder": "_files -/", "file": "_files", "text": " "}[kind]


def zsh_row(option):
    """An option in zsh."""
    name = "(- *)--help" if option.name == "--help" else option.name
    text = re.sub(r"([\[\]:\\])", r"\\\1", option.text)
    value = f":{option.shown}:{zsh_action(option)}" if option.shown else ""
    long = f"{name}=" if option.shown else name
    return f"'{quoted(f'{long}[{text}]{value}')}'"


def zsh(helps):
    """The completion for zsh."""
    rows = [*((name, told.about) for name, told in helps.items()), ("help", "Print help")]
    commands = "".join(f"        '{name}:{quoted(about)}'\n" for name, about in rows)
    arguments = ""
    for name, told in helps.items():
        rows = [zsh_row(option) for option in told.options]
        rows += [f"'{'*' if file.many else place}:{file.name}:_files'" for place, file in enumerate(told.files, 1)]
        arguments += f"        {name})\n            _arguments \\\n" + " \\\n".join(f"                {row}" for row in rows)
        arguments += "\n            ;;\n"
    return ZSH.replace("@COMMANDS@", commands).replace("@ARGUMENTS@", arguments)


def fish_text(text):
    """A text between single quotes in fish."""
    return "'" + text.replace("\\", "\\\\").replace("'", "\\'") + "'"


def fish(helps):
    """The completion for fish."""
    lines = FISH
    for name, told in helps.items():
        lines += f"complete -c faxtool -n __fish_use_subcommand -a {name} -d {fish_text(told.about)}\n"
    lines += "complete -c faxtool -n __fish_use_subcommand -a help -d 'Print help'\n"
    lines += f"complete -c faxtool -n '__fish_seen_subcommand_from help' -f -a '{' '.join(helps)}'\n"
    for name, told in helps.items():
        for option in told.options:
            lines += f"complete -c faxtool -n '__fish_seen_subcommand_from {name}' -l {option.name[2:]} {fish_value(option)}"
            lines += f"-d {fish_text(option.text)}\n"
    return lines


def fish_value(option):
    """What completes a value in fish."""
    if not option.shown:
        return ""
    kind = option.kind()
    if kind == "words":
        return f"-x -a '{' '.join(option.words())}' "
    return {"folder": "-x -a '(__fish_complete_directories)' ", "file": "-r -F ", "text": "-x "}[kind]


# ---- the files


def made(program):
    """Each file by its name, with its text."""
    top = Help(program, [])
    helps = {name: Help(program, [name]) for name, _ in top.commands if name != "help"}
    names = ["faxtool", *(f"faxtool-{name}" for name in helps)]
    files = {"docs/man/faxtool.1": main_page(top, names)}
    files |= {f"docs/man/faxtool-{name}.1": command_page(name, told, names) for name, told in helps.items()}
    shells = {"faxtool.bash": bash(helps), "_faxtool": zsh(helps), "faxtool.fish": fish(helps)}
    return files | {f"docs/completion/{name}": text for name, text in shells.items()}


def main(words):
    if len(words) not in (1, 2) or words[1:] not in ([], ["--check"]):
        sys.exit("usage: make.py PROGRAM [--check]")
    files = made(str(Path(words[0]).resolve()))
    kept = [*TOP.glob("docs/man/faxtool*.1"), *TOP.glob("docs/completion/*")]
    there = {str(path.relative_to(TOP)) for path in kept}
    if words[1:]:
        other = [name for name, text in files.items() if not (TOP / name).is_file() or (TOP / name).read_text() != text]
        other += sorted(there - set(files))
        if other:
            sys.exit(f"make.py: other than the program's help: {' '.join(other)}: run docs/man/make.py PROGRAM")
        print(f"man: {len(names_of(files))} pages and the completion for bash, zsh and fish are those of the program's help")
        return
    for name in there - set(files):
        (TOP / name).unlink()
    for name, text in files.items():
        (TOP / name).parent.mkdir(parents=True, exist_ok=True)
        (TOP / name).write_text(text)


def names_of(files):
    """The man pages of the files."""
    return [name for name in files if name.endswith(".1")]


if __name__ == "__main__":
    main(sys.argv[1:])
