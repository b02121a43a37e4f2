"""Help, the manual page and what a shell completes, of the table of commands."""
from dataclasses import dataclass

from .say import refuse
from .words import near

# The order of help: a command in a line of its own with its purpose, or several in one, with a text behind them.
ON_JOURNAL = [
    "found", "book", "file", "intake", "desks", "fund", "generate", "serve", "dry", "at", (("upgrade", "amend"), ""),
    (("settings", "settings stamps"), ""),
]
ON_A_COPY = [
    (("quote", "why"), "what may be paid, and why no more"),
    (("report standing", "report awards", "report returns", "report export", "report lifetime", "report stamps", "report seal", "report seals"), ""),
    (("csv standing", "csv awards", "csv returns", "csv lifetime", "csv stamps"), "as CSV"),
    (("list", "student", "need", "review", "book show"), ""), (("withdrawal", "letter", "quotes", "payments"), ""),
    (("due", "returns"), "what is to be sent back, and was sent"), "upto", (("next", "ids"), "a school's next number; the file of ids and names"),
    (("backup", "salvage"), "a copy that opens; one of what stands before damage"), (("since", "changes"), "whether all of it still stands; what differs"),
]
ALONE = [
    "help", "check", "explain", "lint", "rows", (("show", "book-row"), ""), (("plot",), ""), "reconcile", (("pay-rows", "carry"), ""),
    (("audit", "loans", "work"), ""), (("--version", "demo", "clock", "completion", "man", "install"), ""),
]
FRONT = "in front of COMMAND: --lenient (0 for 1), --cut (KEEPING.md), --wait SECONDS"
FOOT = """\
Rows: docs/FILINGS.md. Answers: docs/ANSWERS.md. Care: docs/KEEPING.md.
OFFICE_PROGRAM names another build. Status 0 is success, 1 that something was
found or isn't on file, 2 other words, 3 to 10 a fault.
"""
WIDTH, COLUMN = 80, 29


@dataclass
class Completing:
    """What completes words in a shell: a case for each word with others behind it, and the text around the cases."""
    case: str
    text: str


IN_BASH = Completing("        {}) words='{}' ;;", """\
_office() {{
    local word=${{COMP_WORDS[COMP_CWORD]}} words=
    case $COMP_CWORD in
        1) words='{tools}' ;;
        2) case ${{COMP_WORDS[1]}} in audit) words=whole ;; *) words='{commands}' ;; esac ;;
        3) case ${{COMP_WORDS[2]}} in
{cases}
        esac ;;
    esac
    COMPREPLY=($(compgen -W "$words" -- "$word"))
    [ "$COMP_CWORD" = 2 ] && [ "${{COMP_WORDS[1]}}" != audit ] || COMPREPLY+=($(compgen -f -- "$word"))
}}
complete -o filenames -F _office office ./office""")
IN_ZSH = Completing("        {}) compadd -- {} ;;", """\
#compdef office
_office() {{
    case $CURRENT in
        2) compadd -- {tools} ;;
        3) case $words[2] in audit) compadd -- whole ;; *) compadd -- {commands} ;; esac ;;
        4) case $words[3] in
{cases}
        esac ;;
    esac
    [ "$CURRENT" = 3 ] && [ "$words[2]" != audit ] || _files
}}
compdef _office office ./office
if [ "$funcstack[1]" = _office ]; then _office "$@"; fi""")


def shared(commands):
    """The usages of some commands, those with the same arguments in one: `quotes|payments SCHOOL YEAR TERM`."""
    groups = {}
    for command in commands:
        groups.setdefault(command.usage.removeprefix(command.name), []).append(command.name)
    return ", ".join("|".join([names[0], *(name.split()[-1] for name in names[1:])]) + behind for behind, names in groups.items())


def help_lines(items, table):
    """The lines of help on some commands."""
    for item in items:
        names, purpose = item if isinstance(item, tuple) else ((item,), table[item].purpose)
        usage = shared([table[name] for name in names])
        if len(usage) < COLUMN - 2 or not purpose:
            yield f"  {usage:<{COLUMN - 2}}{purpose}".rstrip()
        else:
            yield f"  {usage}    {purpose}"


def help_text():
    """All words on one screen."""
    from .commands import ON_JOURNAL as commands, TOOLS, table_of
    table, tools = table_of(commands), table_of(TOOLS)
    parts = [
        ["usage: office JOURNAL COMMAND, where JOURNAL is the file that keeps the office", *help_lines(ON_JOURNAL, table)],
        ["on a copy, so also while another run holds JOURNAL:", *help_lines(ON_A_COPY, table)],
        [FRONT, "usage: office COMMAND, without a journal", *help_lines(ALONE, tools)],
    ]
    return "".join(f"{line}\n" for part in parts for line in part) + FOOT


def of_name(words):
    """The commands that begin with some words, each with what stands in front of it."""
    from .commands import ON_JOURNAL as commands, OTHER_DESKS, TOOLS
    every = [("office JOURNAL ", commands), ("office ", TOOLS), *((f"office {desk} JOURNAL ", table) for desk, (table, *_) in OTHER_DESKS.items())]
    name = " ".join(words)
    return [(front, command) for front, table in every for command in table if f"{command.name} ".startswith(f"{name} ")]


def help_on(words):
    """Prints all words, or those of a command with an example."""
    if not words:
        print(help_text(), end="")
        return 0
    found = of_name(words)
    if not found:
        from .commands import OF_WORK, ON_JOURNAL as commands, TOOLS, first_words
        refuse(f"there is no command {' '.join(words)}{near(words[0], first_words([*commands, *TOOLS, *OF_WORK]))}; office help has all", 2)
    for front, command in found:
        print(f"usage: {front}{command.usage}\n  {command.purpose}")
        for argument in command.arguments:
            if argument.says:
                print(f"  {argument.name}: {argument.says}")
        for name, says in command.flags:
            print(f"  {name} behind it {says}.")
        if command.copy:
            print("  It runs on a copy, also while another run holds JOURNAL.")
        print(f"  example: {front.replace('JOURNAL', 'books.journal')}{command.example}")
    return 0


def man(_words):
    """Prints the manual page."""
    from .commands import ON_JOURNAL as commands, TOOLS
    escaped = lambda text: text.replace("\\", "\\e").replace("-", "\\-")
    print('.TH OFFICE 1\n.SH NAME\noffice \\- keeps a student aid office in a file\n.SH SYNOPSIS\n.B office\nJOURNAL COMMAND\n.br\n.B office\nCOMMAND')
    for title, front, table in (("COMMANDS ON A JOURNAL", "books.journal ", commands), ("COMMANDS WITHOUT A JOURNAL", "", TOOLS)):
        print(f".SH {title}")
        for command in table:
            print(f".TP\n.B {escaped(command.usage)}\n{escaped(command.purpose)}.\n.br\nExample: {escaped(f'office {front}{command.example}')}")
    print(f".SH OPTIONS\n{escaped(FRONT)}\n.SH EXIT STATUS\n{escaped(FOOT.splitlines()[1].split('. ')[1])}\n{escaped(FOOT.splitlines()[2])}")
    return 0


def completion(words):
    """Prints what completes these words in a shell."""
    from .commands import ON_JOURNAL as commands, TOOLS, first_words
    groups = {}
    for command in commands:
        if " " in command.name:
            first, second = command.name.split()
            groups.setdefault(first, []).append(second)
    form = IN_ZSH if words == ["zsh"] else IN_BASH
    cases = "\n".join(form.case.format(first, " ".join(second)) for first, second in groups.items())
    print(form.text.format(tools=" ".join(first_words(TOOLS)), commands=" ".join(first_words(commands)), cases=cases))
    return 0
