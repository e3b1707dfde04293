"""Pages of man and the completion for bash, made from the texts with which the tools show their help."""
import ast
import re

OPTION = re.compile(r"(?<![\w-])--[a-z][a-z0-9-]*")
QUOTED = re.compile(r"`([^`]+)`")
COMPLETION = """\
# completion of `uicc` and `uicc_run` for bash
_uicc_program() {
    case ${words[cword - 1]} in
        --store) COMPREPLY=($(compgen -W 'journal pages' -- "$cur")) ;;
        --image) COMPREPLY=($(compgen -f -- "$cur")) ;;
        *) COMPREPLY=($(compgen -W '--image --store' -- "$cur")) ;;
    esac
}

_uicc_run() {
    local cur=${COMP_WORDS[COMP_CWORD]} cword=$COMP_CWORD
    local -a words=("${COMP_WORDS[@]}")
    if [ "$cword" = 1 ]; then
        COMPREPLY=($(compgen -W '@PROGRAM@ --help --version' -- "$cur"))
    else
        _uicc_program
    fi
}

_uicc() {
    local cur=${COMP_WORDS[COMP_CWORD]} cword=$COMP_CWORD options=''
    local -a words=("${COMP_WORDS[@]}")
    if [ "$cword" = 1 ]; then
        COMPREPLY=($(compgen -W '@PROGRAM@ @WORDS@ page help --help --version' -- "$cur"))
        return
    fi
    case ${words[1]} in
        @PROGRAM_CASE@) _uicc_program; return ;;
        help) COMPREPLY=($(compgen -W '@WORDS@' -- "$cur")); return ;;
        page) options='--path' ;;
@OPTIONS@
    esac
    if [[ $cur == -* ]]; then
        COMPREPLY=($(compgen -W "$options --help" -- "$cur"))
    else
        COMPREPLY=($(compgen -f -- "$cur"))
    fi
}

complete -o filenames -F _uicc uicc
complete -o filenames -F _uicc_run uicc_run
"""


def text_in(source):
    """The text that a tool's source begins with."""
    return ast.get_docstring(ast.parse(source), clean=False)


def escaped(line):
    """A line as troff shows it as it is."""
    line = line.replace("\\", "\\e").replace("-", "\\-")
    line = QUOTED.sub(r"\\fB\1\\fP", line)
    return "\\&" + line if line.startswith((".", "'")) else line


def lines_of(text):
    """The lines of a text: its blocks that are set in stand as they are, and others are filled."""
    is_set_in = False
    for line in text.split("\n"):
        if line.strip() and line.startswith("    ") != is_set_in:
            is_set_in = not is_set_in
            yield from ([".PP", ".nf", ".RS 4"] if is_set_in else [".RE", ".fi", ".PP"])
        yield escaped(line[4:] if is_set_in else line) if line.strip() else ".sp" if is_set_in else ".PP"
    if is_set_in:
        yield from (".RE", ".fi")


def without_doubles(lines):
    """The lines with one mark of a paragraph where several follow each other, and with none at the beginning of a section."""
    kept = []
    for line in lines:
        if line == ".PP" and kept and (kept[-1] == ".PP" or kept[-1].startswith(".SH")):
            continue
        kept.append(line)
    return kept


def page_of(name, text, version, date):
    """The page of a command, from its text: a line that says what it does, the words by which it is called, and the rest."""
    summary, _, rest = text.strip("\n").partition("\n\n")
    usage, _, description = rest.partition("\n\n") if rest.startswith("    ") else ("", "", rest)
    summary = " ".join(summary.split()).rstrip(".")
    lines = [f'.TH "{name.upper()}" 1 "{date}" "uicc\\-run {version}" "uicc\\-run"', ".SH NAME", f"{escaped(name)} \\- {escaped(summary)}"]
    if usage:
        lines += [".SH SYNOPSIS", ".nf", *(escaped(line[4:]) for line in usage.split("\n")), ".fi"]
    lines += [".SH DESCRIPTION", *lines_of(description)]
    return "\n".join(without_doubles(lines)) + "\n"


def images_in(text):
    """The table of docs/CARDS.md on the file of an image: its head, and a row for each file."""
    table = text[text.index("| the file |"):].partition("\n\n")[0]
    head, _, *rows = ([cell.strip() for cell in line.strip("|").split("|")] for line in table.split("\n"))
    return head, rows


def lines_on_images(text):
    """What becomes of the file of an image, with the status where a run can't have it."""
    (_, *words), rows = images_in(text)
    yield from (".SH FILES", "What becomes of the file of \\fB\\-\\-image\\fP, and with which status a run ends that can\'t have it:")
    for file, *ends in rows:
        yield from (".TP", escaped(f"the file {file}"))
        yield from (line for word, end in zip(words, ends) for line in (escaped(f"{word}: {end}"), ".br"))
    yield from (".PP", escaped("9 is the launcher's, which looks at the file before it runs the program, and says why on standard error. It ends "
                               "with 9 too where it can run nothing."))


def program_page(text, images, version, date):
    """The page of the program, from its page of help and the document that has the table of images."""
    summary, _, rest = text.partition("\n\n")
    summary = " ".join(summary.split()).removeprefix("uicc_run ").rstrip(".")
    set_in = "\n".join("    " + line if line else line for line in rest.strip("\n").split("\n"))
    lines = [f'.TH "UICC_RUN" 1 "{date}" "uicc\\-run {version}" "uicc\\-run"', ".SH NAME", f"uicc_run \\- {escaped(summary)}",
             ".SH DESCRIPTION", *lines_of(set_in), *lines_on_images(images)]
    return "\n".join(without_doubles(lines)) + "\n"


def completion(tools, program_words):
    """The completion for bash; `tools` are the texts of the tools by their names."""
    options = "\n".join(f"        {name}) options='{' '.join(sorted(set(OPTION.findall(text))))}' ;;" for name, text in sorted(tools.items()))
    found = {"@PROGRAM@": " ".join(program_words), "@PROGRAM_CASE@": " | ".join(program_words), "@WORDS@": " ".join(sorted(tools)),
             "@OPTIONS@": options}
    made = COMPLETION
    for mark, text in found.items():
        made = made.replace(mark, text)
    return made
