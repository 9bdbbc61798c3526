"""The texts that are generated of what `tesla --help` and the scripts tell: manual pages or parts of them, and completions."""
import ast
import os
import re
import textwrap

from forms import kind_of
from layout import SCRIPTS

HERE = os.path.dirname(os.path.abspath(__file__))
MARKED = '.\\" This file is generated of tesla.1.in and of `tesla --help` by packaging/generate.\n'
SCRIPT = "# This file is generated of `tesla --help` by packaging/generate.\n"
OF_SCRIPT = '.\\" This file is generated of {}/{} by packaging/generate.\n'


def of_words(words):
    """The words of a form as macros of mdoc: those that have to be there, and then those that may be."""
    needed = [word for word in words if not word.startswith("[")]
    return ["Ar " + " ".join(needed), *(f"Oo Ar {word[1:-1]} Oc" for word in words[len(needed):])]


def prose(text, marked):
    """A text as lines of mdoc, one sentence a line at most, in which the words that are marked are those of a form."""
    lines, open_line = [], []

    def close():
        if open_line:
            lines.extend(textwrap.wrap(" ".join(open_line), 78))
            open_line.clear()

    for token in text.split():
        word, point = re.fullmatch(r"(.*?)([,.;:]?)", token).groups()
        if word in marked:
            close()
            lines.append(f".Ar {word} {point}".rstrip())
        else:
            open_line.append(token)
            if point == ".":
                close()
    close()
    return lines


def sentence(text):
    """A text as a sentence: with a capital where a word begins it, and a full stop."""
    text = text if re.match(r"[A-Z0-9]+\b", text) else text[:1].upper() + text[1:]
    return text if text.endswith(".") else f"{text}."


def synopsis(told):
    """The forms, a line each."""
    lines = []
    for form in told.forms:
        lines.append(".Nm")
        if form.command.startswith("-"):
            lines.append(f".Fl -{form.command[2:]}")
        else:
            lines += [f".Cm {form.command}", *(f".{part}" for part in of_words(form.words))]
    return "\n".join(lines)


def commands(told):
    """What each command does, with what is told of its words."""
    marked = {word.strip("[]") for form in told.forms for word in form.words}
    lines = [".Bl -tag -width Ds"]
    for form in told.commands():
        lines.append(f".It Cm {form.command} {' '.join(of_words(form.words))}")
        lines += prose(sentence(form.text()), marked)
        if form.told:
            lines.append(".Bl -tag -width CAPACITY -compact")
            for words, text in form.told:
                lines.append(f".It Ar {' , '.join(words)}")
                lines += prose(sentence(text), marked)
            lines.append(".El")
        if form.example:
            lines += [".Pp", *prose(" ".join(form.about_example), marked), f".Dl $ {form.example}"]
    return "\n".join(lines + [".El"])


def manual(told):
    """The manual page tesla(1)."""
    with open(f"{HERE}/manuals/tesla.1.in", encoding="utf-8") as file:
        text = file.read()
    return MARKED + text.replace("@SYNOPSIS@", synopsis(told)).replace("@COMMANDS@", commands(told))


def paragraph(text, marked):
    """A paragraph of what a script tells of itself, as lines of mdoc; an indented one as it stands."""
    if text.startswith("    "):
        return [".Bd -literal -offset indent", *textwrap.dedent(text).replace("\\", "\\e").splitlines(), ".Ed"]
    return [".Pp", *prose(re.sub(r"`([^`]*)`", r"\\(oq\1\\(cq", text), marked)]


def manual_of(name, date):
    """The manual page of a script, of what it tells without words."""
    with open(f"{HERE}/../{SCRIPTS[name]}/{name}", encoding="utf-8") as file:
        head, *rest = ast.get_docstring(ast.parse(file.read())).split("\n\n")
    does, _, line = head.partition(": ")
    words = line.split()[1:]
    lines = [f".Dd {date}", f".Dt {name.upper()} 1", ".Os", ".Sh NAME", f".Nm {name}", f".Nd {does[:1].lower()}{does[1:]}",
             ".Sh SYNOPSIS", ".Nm", f".Ar {' '.join(words)}", ".Sh DESCRIPTION"]
    told = [line for text in rest for line in paragraph(text, words)]
    return OF_SCRIPT.format(SCRIPTS[name], name) + "\n".join([*lines, *told[told[0] == ".Pp":], ".Sh SEE ALSO", ".Xr tesla 1 ,", ".Xr tesla-formats 5", ""])


def bash_case(form):
    """The case of a command: what stands at each place behind it."""
    kinds = [kind_of(word) for word in form.words]
    return f"        {form.command}) kinds=({' '.join(kinds)}) ;;"


def bash(told):
    """The completions for bash."""
    cases = "\n".join(map(bash_case, told.longest()))
    names = " ".join(dict.fromkeys(form.command for form in told.forms))
    return SCRIPT + f"""\
_tesla()
{{
    # The line is cut at spaces alone: bash would cut an address at its colon.
    local line=${{COMP_LINE:0:COMP_POINT}} words kinds=() before=
    read -ra words <<< "${{line}}_"
    local place=$((${{#words[@]}} - 1)) word=${{words[-1]%_}}
    COMPREPLY=()
    if [ "$place" -eq 1 ]; then
        COMPREPLY=($(compgen -W "{names}" -- "$word"))
        return
    fi
    case ${{words[1]}} in
{cases}
    esac
    case ${{kinds[place - 2]}} in
        file) ;;
        files) [[ $word == *,* ]] && before=${{word%,*}}, && compopt -o nospace ;;
        *) return ;;
    esac
    compopt -o filenames
    mapfile -t COMPREPLY < <(compgen -P "$before" -f -- "${{word##*,}}")
}}
complete -F _tesla tesla
"""


ZSH_ACTIONS = {"file": "_files", "files": "_sequence _files", "address": " ", "number": " "}


def zsh_quoted(text):
    """A text within single quotes and within a part of a specification of zsh, which a colon ends."""
    return text.replace("\\", "\\\\").replace(":", "\\:").replace("[", "\\[").replace("]", "\\]").replace("'", "'\\''")


def zsh_case(form):
    """The case of a command: what stands at each place behind it."""
    lines = [f"        {form.command})", "            _arguments \\"]
    for place, word in enumerate(form.words, 1):
        name = word.strip("[]")
        about = f"{name}, {form.told_of(name)}" if form.told_of(name) else name
        colon = "::" if word.startswith("[") else ":"
        lines.append(f"                '{place}{colon}{zsh_quoted(about)}:{ZSH_ACTIONS[kind_of(word)]}' \\")
    lines[-1] = lines[-1].removesuffix(" \\")
    return "\n".join(lines + ["            ;;"])


def zsh(told):
    """The completions for zsh."""
    names = "\n".join(f"        '{form.command}:{zsh_quoted(form.short())}'" for form in told.longest())
    cases = "\n".join(map(zsh_case, told.longest()))
    return "#compdef tesla\n" + SCRIPT + f"""\
_tesla()
{{
    local -a commands
    commands=(
{names}
        '--help:prints the forms of the commands'
        '--version:prints the version'
    )
    if (( CURRENT == 2 )); then
        _describe command commands
        return
    fi
    local command=$words[2]
    shift words
    (( CURRENT-- ))
    case $command in
{cases}
    esac
}}
_tesla "$@"
"""


def generated(told):
    """The files that are generated, by their names below this folder."""
    page = manual(told)
    date = re.search(r"^\.Dd (.*)$", page, re.MULTILINE)[1]
    scripts = {f"manuals/{name}.1": manual_of(name, date) for name in SCRIPTS}
    return {"manuals/tesla.1": page, "completions/tesla.bash": bash(told), "completions/_tesla": zsh(told), **scripts}
