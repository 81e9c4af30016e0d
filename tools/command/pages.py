"""What is made from the table of words: the page of help, the completions for bash and zsh, and the man page."""
from command.table import BOUNDS, DEFAULT_WORKERS, EXAMPLES, OWN_STATUSES, STATUSES, UNPROVED, WORDS, WORKERS, synopsis

MADE = "Written by tools/pages from tools/command/table.py."
WORKER_CHOICES = " ".join(str(1 << power) for power in range(WORKERS.high.bit_length()))


def columns(rows, indent="  "):
    """Rows of two texts, the second in one column."""
    wide = max(len(first) for first, _ in rows) + 2
    return [f"{indent}{first:{wide}}{second}" for first, second in rows]


def help_page() -> str:
    """What `./fx help` prints."""
    words = []
    for word in WORDS:
        words += [f"  {synopsis(word)}", f"      {word.summary}"]
    numbers = [(f"{number.name} of {word.word}", f"{number.low} to {number.high:,}") for word in WORDS for number in word.numbers]
    numbers[0] = (numbers[0][0], "0 to 2^64 - 1")
    lines = ["Pelunavosh: a matching host for interbank spot foreign exchange whose answers are proved.", "", *words]
    lines += ["", "Examples"]
    for line, what in EXAMPLES:
        lines += [f"  {line}", f"      {what}"]
    lines += ["", "Bounds", *columns([*BOUNDS[:-1], *numbers])]
    lines += ["", "Exit statuses", *columns([(str(status), what) for status, what in {**STATUSES, **OWN_STATUSES}.items()])]
    lines += ["", "docs/SESSION.md has the text of a session, docs/OUTPUT.md the output and the statuses, docs/ROLES.md what to read first."]
    return "\n".join(lines) + "\n"


def bash() -> str:
    """The completions for bash."""
    shared = " ".join(word.word for word in WORDS if not word.own)
    own = " ".join(word.word for word in WORDS if word.own)
    formed = "\n".join(
        f"    elif [ \"${{COMP_WORDS[1]}} $COMP_CWORD\" = '{word.word} 2' ]; then\n        choices='{' '.join(word.forms)}'" for word in WORDS if word.forms
    )
    places = "\n".join(f"        {word.word}) at={2 + len(word.numbers)} ;;" for word in WORDS if word.threaded)
    return f"""# Completions for bash of ./fx, and of fx_cli, the program itself. {MADE}
# In a shell: source share/completions/fx.bash
_fx() {{
    local current=${{COMP_WORDS[COMP_CWORD]}} before=${{COMP_WORDS[COMP_CWORD - 1]}} at=0 choices=
    COMPREPLY=()
    case $before in
        '<' | '>' | '>>')
            compopt -o filenames 2> /dev/null
            mapfile -t COMPREPLY < <(compgen -f -- "$current")
            return ;;
        --workers) choices='{WORKER_CHOICES}' ;;
    esac
    if [ "$COMP_CWORD" = 1 ]; then
        choices='{shared}'
        [ "${{COMP_WORDS[0]##*/}}" = fx_cli ] || choices+=' {own}'
{formed}
    elif [ "${{COMP_WORDS[1]}} $COMP_CWORD" = 'package 2' ]; then
        compopt -o filenames 2> /dev/null
        mapfile -t COMPREPLY < <(compgen -d -- "$current")
        return
    fi
    case ${{COMP_WORDS[1]}} in
{places}
    esac
    [ "$COMP_CWORD" = "$at" ] && choices=--workers
    mapfile -t COMPREPLY < <(compgen -W "$choices" -- "$current")
}}
complete -F _fx fx ./fx fx_cli
"""


def zsh_text(text: str) -> str:
    """A text within a description: quotes, colons and brackets mean something there."""
    return text.replace("'", "'\\''").replace(":", "\\:").replace("[", "\\[").replace("]", "\\]")


def zsh_arguments(word) -> str:
    """What may stand behind a word."""
    places = [f"'{place}:{number.name}, {number.low} to {number.high}:'" for place, number in enumerate(word.numbers, 1)]
    places += [f"'--workers[{zsh_text(WORKERS.what)}]:{WORKERS.name}, {WORKERS.low} to {WORKERS.high}:({WORKER_CHOICES})'"] * word.threaded
    places += ["'1:folder:_files -/'"] * word.folder
    places += [f"'1:form:({' '.join(word.forms)})'"] * bool(word.forms)
    return f"        {word.word}) _arguments {' '.join(places)} ;;"


def zsh() -> str:
    """The completions for zsh."""
    described = {own: "\n".join(f"        '{word.word}:{zsh_text(word.summary)}'" for word in WORDS if word.own == own) for own in (False, True)}
    arguments = "\n".join(zsh_arguments(word) for word in WORDS if word.threaded or word.folder or word.forms)
    return f"""#compdef fx fx_cli
# Completions for zsh of ./fx, and of fx_cli, the program itself. {MADE}
# In a shell: fpath=($PWD/share/completions $fpath); autoload -Uz compinit; compinit
local -a shared own
shared=(
{described[False]}
)
own=(
{described[True]}
)
if (( CURRENT == 2 )); then
    [[ ${{words[1]:t}} == fx_cli ]] || shared+=($own)
    _describe 'word' shared
    return
fi
shift words
(( CURRENT-- ))
case $words[1] in
{arguments}
        *) _message 'no more words' ;;
esac
"""


def roff(text: str) -> str:
    """A text of the man page: backslashes, dashes, and a dot or a quote in front mean something there."""
    text = text.replace("\\", "\\e").replace("-", "\\-").replace("2^64", "2\\(ha64").replace("2^", "2\\(ha")
    return f"\\&{text}" if text.startswith((".", "'")) else text


def tagged(rows) -> str:
    return "\n".join(f".TP\n.B {roff(first)}\n{roff(second)}" for first, second in rows)


def man() -> str:
    """The man page."""
    words = "\n".join(f".TP\n.B {roff(synopsis(word))}\n{roff(f'{word.summary[0].upper()}{word.summary[1:]}. {word.more}')}" for word in WORDS)
    statuses = tagged([(str(status), f"{what}.") for status, what in {**STATUSES, **OWN_STATUSES}.items()])
    bounds = "\n".join(f".TP\n.B {roff(what)}\n{roff(bound)}" for what, bound in BOUNDS)
    examples = "\n".join(f".TP\n.B {roff(line)}\n{roff(what)}" for line, what in EXAMPLES)
    return f"""'\\" t
.\\" {MADE}
.TH FX 1 "" "Pelunavosh" "Pelunavosh"
.SH NAME
fx, fx_cli \\- a matching host for interbank spot foreign exchange whose answers are proved
.SH SYNOPSIS
{chr(10).join(f".B {roff(synopsis(word))}{chr(10)}.br" for word in WORDS[:-1])}
.B {roff(synopsis(WORDS[-1]))}
.SH DESCRIPTION
Banks trade currency pairs with one another on credit.
A session is one day of the market as a text: banks, pairs, limits, and the banks' commands.
The program reads it from standard input and prints what happened, what each bank was told, the local books at the end, and what each bank owes.
.PP
.B ./fx
starts the program from a clone of the repository.
.B fx_cli
is the program itself, as the package installs it. It has the commands
{roff(", ".join(word.word for word in WORDS if not word.own))}; only
.B ./fx
has the others.
.PP
If a clone has no built program, or a source is newer than it,
.B ./fx
says on standard error:
{roff(UNPROVED)}.
For {roff(" and ".join(word.word for word in WORDS if word.journal))} it starts the built program alone.
.SH COMMANDS
{words}
.SH OPTIONS
.TP
.B {roff(f"--workers {WORKERS.name}")}
how many {roff(WORKERS.what)}, {WORKERS.low} to {WORKERS.high}; the default is {DEFAULT_WORKERS}. The option comes last.
.SH BOUNDS
{bounds}
.SH EXIT STATUS
{statuses}
.SH EXAMPLES
{examples}
.SH FILES
.TP
.B /usr/share/doc/pelunavosh
the pages, the examples, and the SHA\\-256 of the program, where the package is installed
.SH SEE ALSO
README.md, docs/ROLES.md, docs/SESSION.md, docs/OUTPUT.md
"""


# Each file that is made from the table, from the repository's folder on.
FILES = {"share/completions/fx.bash": bash, "share/completions/_fx": zsh, "share/man/fx.1": man}
