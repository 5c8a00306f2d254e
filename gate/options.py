#!/usr/bin/env python3
"""Draws the completions of the command for bash, zsh and fish from its table of options, crates/jwt_words/src/options.rt, and of the manual the synopsis, from
the table of commands in docs/COMMAND.md, and the options of which it says nothing else, from the table of options.

    gate/options.py            compares
    gate/options.py --write    writes docs/jwt.bash, docs/jwt.zsh, docs/jwt.fish and these parts of docs/jwt.1

It ends with 'N passed, M failed'.
"""
import json, pathlib, re, sys

TOP = pathlib.Path(__file__).resolve().parent.parent
TABLE = TOP / "crates/jwt_words/src/options.rt"
ABOUT = {
    "verify": "validate a token", "show": "show a token without verifying it", "issue": "issue a token by a secret",
    "jwk": "make a key set of public keys, or a new secret", "keys": "list the keys of a key set", "policy": "explain a policy", "mac": "compute the tag of a token",
}
HMAC = "HS256 HS384 HS512"
PUBLIC = "RS256 RS384 RS512 PS256 PS384 PS512 ES256 ES384 ES512 EdDSA"
CHOICES = {("issue", "alg"): HMAC, ("jwk", "new"): HMAC, ("jwk", "alg"): f"{HMAC} {PUBLIC}", ("issue", "form"): "compact json flattened"}
# What the program reads itself, ahead of `clap`: `--trim`, and the file of `show`.
TRIM = ("trim", "", "Drops a final line feed of standard input")
TAKES_FILE = "show"
MANUAL = "docs/jwt.1"


def options():
    """Of each command its options: name, value and what they are."""
    found = {}
    for name, rows in re.findall(r"const ([A-Z]+): \[OptionRow; \d+\] = \[\n(.*?)^\];", TABLE.read_text(), re.DOTALL | re.MULTILINE):
        parts = re.findall(r'row! \{ ("[^"]*"), ("[^"]*"), \w+, ("(?:[^"\\]|\\.)*") \}', rows)
        found[name.lower()] = [tuple(json.loads(it) for it in row) for row in parts]
    found["verify"].append(TRIM)
    return {command: found[command] for command in ABOUT}


def briefly(table):
    """The same with the first words of what they are."""
    return {command: [(name, value, re.split(r"[,;:]", what)[0]) for name, value, what in rows] for command, rows in table.items()}


def bash(table):
    lines = """\
# Completions of the command jwt for bash, drawn by gate/options.py. In use after: source docs/jwt.bash

_jwt() {
    local word=${COMP_WORDS[COMP_CWORD]} before=${COMP_WORDS[COMP_CWORD - 1]} choices=
    if [ "$COMP_CWORD" -eq 1 ]; then
        choices="COMMANDS --version"
    else
        case ${COMP_WORDS[1]}:$before in
""".replace("COMMANDS", " ".join(table))
    each = [(command, name, value) for command, rows in table.items() for name, value, _ in rows]
    for (command, name), words in CHOICES.items():
        lines += f'        {command}:--{name}) choices="{words}" ;;\n'
    lines += "        " + " | ".join(f"{c}:--{n}" for c, n, v in each if v == "FILE") + """)
            # (so that what is a word of bash within a file's name is quoted)
            compopt -o filenames
            mapfile -t COMPREPLY < <(compgen -f -- "$word")
            return
            ;;
        # The values of these aren't known here.
"""
    lines += "        " + " | ".join(f"{c}:--{n}" for c, n, v in each if v not in ("", "FILE") and (c, n) not in CHOICES) + ") ;;\n"
    for command, rows in table.items():
        words = f'choices="{" ".join(f"--{n}" for n, _, _ in rows)}"'
        if command == TAKES_FILE:
            lines += f"""\
        {command}:*)
            {words}
            compopt -o filenames
            mapfile -t COMPREPLY < <(compgen -W "$choices" -- "$word"; compgen -f -- "$word")
            return
            ;;
"""
        else:
            lines += f"        {command}:*) {words} ;;\n"
    return lines + """\
        esac
    fi
    mapfile -t COMPREPLY < <(compgen -W "$choices" -- "$word")
}
complete -F _jwt jwt ./jwt
"""


def zsh(table):
    lines = "#compdef jwt\n# Completions of the command jwt for zsh, drawn by gate/options.py. As _jwt in a folder of $fpath, or: source docs/jwt.zsh\n\n_jwt() {\n    local -a commands=(\n"
    lines += "".join(f"        '{command}:{about}'\n" for command, about in ABOUT.items()) + """\
    )
    if ((CURRENT == 2)); then
        _describe command commands
        _arguments '--version[print the version]'
        return
    fi
    local command=$words[2]
    shift words
    ((CURRENT--))
    case $command in
"""
    for command, rows in table.items():
        words = []
        for name, value, what in rows:
            given = f":choice:({CHOICES[command, name]})" if (command, name) in CHOICES else ":file:_files" if value == "FILE" else f":{value.lower()}:" if value else ""
            other = {"token": "(--trim)", "trim": "(--token)"}.get(name, "") if command == "verify" else ""
            words.append(f"'{other}--{name}[{what}]{given}'")
        words += ["'1:file:_files'"] if command == TAKES_FILE else []
        lines += f"    {command})\n        _arguments " + " \\\n            ".join(words) + "\n        ;;\n"
    return lines + """\
    esac
}
# (as a file of $fpath it is the function itself)
if [ "$funcstack[1]" = _jwt ]; then
    _jwt "$@"
else
    compdef _jwt jwt
fi
"""


def fish(table):
    lines = "# Completions of the command jwt for fish, drawn by gate/options.py. As jwt.fish in ~/.config/fish/completions, or: source docs/jwt.fish\n\n"
    lines += 'complete -c jwt -f\ncomplete -c jwt -n __fish_use_subcommand -l version -d "Print the version"\n'
    lines += "".join(f'complete -c jwt -n __fish_use_subcommand -a {command} -d "{about[0].upper()}{about[1:]}"\n' for command, about in ABOUT.items()) + "\n"
    for command, rows in table.items():
        seen = f'complete -c jwt -n "__fish_seen_subcommand_from {command}"'
        lines += f"{seen} -F\n" if command == TAKES_FILE else ""
        for name, value, what in rows:
            given = f' -x -a "{CHOICES[command, name]}"' if (command, name) in CHOICES else " -r -F" if value == "FILE" else " -x" if value else ""
            lines += f'{seen} -l {name}{given} -d "{what}"\n'
    return lines


COMMANDS = "| Command | Standard input | Answer |"
# Around the options of the manual that are drawn.
BEGIN, END = '.\\" Drawn by gate/options.py:\n', '.\\" (up to here)\n'


def macros(text):
    """A synopsis of docs/COMMAND.md in the macros of a manual: what is in brackets may be left out, and one of what stands around a bar is written."""
    word = re.compile(r"--([\w-]+)(?: ([A-Z=]+))?|([A-Z]+)|(\[)|(\])|(\|)|[()]")
    out, depth = [], 0
    for found in word.finditer(text):
        option, value, name, opens, closes, bar = found.groups()
        if option:
            # (a word in capitals behind an option is its value)
            out.append(f"Fl \\-{option}" + (f" Ar {value}" if value else ""))
        elif name:
            out.append(f"Ar {name}")
        elif opens:
            out, depth = out + ["Oo"], depth + 1
        elif closes:
            out, depth = out + ["Oc"], depth - 1
        elif bar:
            out.append("|")
    line = " ".join(out)
    # (brackets around a whole line have a macro of their own)
    return re.sub(r"^Oo ([^O]*?) Oc$", r"Op \1", line)


def synopsis():
    """The synopsis of the manual."""
    page = (TOP / "docs/COMMAND.md").read_text().partition(COMMANDS)[2].partition("\n\n")[0]
    lines = []
    for words in re.findall(r"^\| `jwt (.*?)` \|", page, re.MULTILINE):
        command, _, rest = words.replace("\\|", "|").partition(" ")
        lines += [".Nm jwt" + (f" Cm {command}" if command in ABOUT else "")]
        rest = rest if command in ABOUT else command
        # (each part that is in no bracket is a line)
        lines += [f".{macros(it)}" for it in re.findall(r"\[[^\]]*\]|\(.*?\)(?= \[|$)|--[\w-]+(?: [A-Z=]+)?|[A-Z]+", rest)]
    return "\n".join(lines) + "\n"


def listed(table, text):
    """The items of the options that the manual's text doesn't list otherwise."""
    known = set(re.findall(r"Fl \\-([\w-]+)", "\n".join(re.findall(r"^\.It .*", text, re.MULTILINE))))
    rows = [(command, row) for command, rows in table.items() for row in rows if row[0] not in known]
    return "".join(f".It Fl \\-{name}" + (f" Ar {value}" if value else "") + f"\nOf\n.Cm {command} :\n{what.replace('--', chr(92) + '-' + chr(92) + '-')}.\n" for command, (name, value, what) in rows)


def manual(table):
    """The manual, with what is drawn of it drawn anew."""
    text = (TOP / MANUAL).read_text()
    head, _, rest = text.partition(".Sh SYNOPSIS\n")
    before, _, rest = rest.partition(".Sh DESCRIPTION\n")[2].partition(BEGIN)
    return f"{head}.Sh SYNOPSIS\n{synopsis()}.Sh DESCRIPTION\n{before}{BEGIN}{listed(table, before)}{END}{rest.partition(END)[2]}"


def unlisted(table):
    """The options of a command that its synopsis hasn't as the table has them."""
    for command, rows in table.items():
        used = "".join(re.findall(rf"^\.Nm jwt Cm {command}\n(.*?)(?=^\.Nm |\Z)", synopsis(), re.MULTILINE | re.DOTALL))
        found, wanted = set(re.findall(r"Fl \\-([\w-]+)(?: Ar ([A-Z=]+))?", used)), {(name, value) for name, value, _ in rows}
        yield from (f"{command} --{name}" for name, _ in sorted(found ^ wanted))


DRAWN = {"docs/jwt.bash": lambda table: bash(briefly(table)), "docs/jwt.zsh": lambda table: zsh(briefly(table)), "docs/jwt.fish": lambda table: fish(briefly(table)), MANUAL: manual}


def main():
    table, failed = options(), 0
    for path, draw in DRAWN.items():
        if "--write" in sys.argv[1:]:
            (TOP / path).write_text(draw(table))
        elif (TOP / path).read_text() != draw(table):
            failed += 1
            print(f"{path}: not what the table of options has: gate/options.py --write")
    faults = list(unlisted(table))
    for fault in faults:
        print(f"docs/COMMAND.md: {fault}: not as the table of options has it")
    failed += bool(faults)
    print(f"{len(DRAWN) + 1 - failed} passed, {failed} failed")
    return int(failed > 0)


if __name__ == "__main__":
    sys.exit(main())
