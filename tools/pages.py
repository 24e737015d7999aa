"""Man pages, and completions for shells, made from the tables of the options, from include/jsstr.h and from docs/LANGUAGE.md."""

import os
import re

import answers
import arguments
import checkout
import manual
from manual import roff

WHERE_CALLS = {
    "jsstr-where COMMAND ARG..": "Runs a command, such as jsstr a.js, explains its standard error, and ends with its status.",
    "jsstr-where": "Reads lines of the program from standard input, and writes them explained: jsstr a.js 2>&1 >a.out | jsstr-where",
    "jsstr-where --check [--prelude FILE] FILE..": "Says of each file whether it is a script, and runs nothing. Ends with 0, with 4 where one is none, with 3 where one can't be read, and with 1 where a name has no declaration.",
}
LANGUAGE_NOTES = "USAGE is docs/USAGE.md of the repository, and demo/ is there too; neither is installed. jsstr(1) has what USAGE says of a call."
SCHED_STATUSES = {
    "0": "all steps were played",
    "1": "a step is not enabled: LINE: not enabled",
    "2": "the arguments are not exactly one file: jssched: the words are refused",
    "3": "the file can't be read, or has more than 1048576 bytes",
    "4": "a line is malformed: LINE: refused",
    "6": "out of memory",
    "7": "a write failed",
}


def rows(table):
    return "".join(f".TP\n.B {roff(head)}\n{roff(about)}\n" for head, about in table.items())


def page(name, section, version, about, parts):
    """A man page: its name with what it is, and further sections in their order."""
    head = f'.TH {name.upper()} {section} "" "jsstr {version}" "jsstr"\n.SH NAME\n{roff(name)} \\- {roff(about)}\n'
    return head + "".join(f".SH {title}\n{body.rstrip()}\n" for title, body in parts)


def synopsis(lines):
    return "\n.br\n".join(f".B {roff(it)}" for it in lines)


def see_also(*names):
    """The section on other pages, such as jsstr.3."""
    return "SEE ALSO", ",\n".join(f".BR {roff(name)} ({section})" for name, _, section in (it.rpartition(".") for it in names))


def jsstr_page(version, others):
    """The page of the program; `others` are the pages that are there beside it, such as jssched.1."""
    about = (
        "Each FILE is a script in a small part of strict JavaScript, which sees nothing of the others. Scripts run side by side over one heap of strings. "
        "Their lines come on standard output in the order of the files, and on standard error one line for each file that doesn't run to its end."
    )
    ends = (
        "FILE: uncaught KIND; FILE: unsupported at OFFSET; FILE: cannot be read; FILE: larger than 1048576 bytes; FILE:OFFSET: refused: WORDS; "
        "FILE: heap full: ids, words or slots; FILE: out of memory. OFFSET is a byte offset from 0. Where standard error is a terminal, the line and column are given in its place, "
        "with what to write or to try instead; jsstr-where(1) does so elsewhere."
    )
    full = "Give the heap more of what the line names, by --ids, --heap-words or --slots: twice as much, until the line is gone."
    program = "The command is a small wrapper, which needs Python 3.8, of the program PREFIX/libexec/jsstr/jsstr, which needs nothing; that one has no --help and no --version."
    statuses = {number: said for number, said in answers.STATUSES.items() if len(number) == 1}
    return page("jsstr", 1, version, "runs scripts over one heap of strings", [
        ("SYNOPSIS", synopsis(answers.SYNTAX)),
        ("DESCRIPTION", roff(about)),
        ("OPTIONS", rows(answers.options()) + rows({"--help": "these options", "--version": "the version, and what the program was built from"}) + f".PP\n{roff(answers.MEMORY)} There are no short options but \\-h."),
        ("EXIT STATUS", rows(statuses)),
        ("DIAGNOSTICS", f"{roff(ends)}\n.PP\n{roff(full)}"),
        ("FILES", roff(program)),
        ("ENVIRONMENT", "With GLIBC_TUNABLES=glibc.malloc.hugetlb=1 the C library makes a large heap faster, in large pages; the wrapper sets it where nothing else is set."),
        ("EXAMPLES", ".nf\njsstr a.js\njsstr \\-\\-prelude shared.js \\-\\-jobs 8 a.js b.js\njsstr /dev/stdin <a.js\njsstr\\-where jsstr a.js\n.fi"),
        see_also("jsstr-where.1", "jsstr-language.7", *others),
    ])


def language_page(version):
    """The page of the language: docs/LANGUAGE.md."""
    with open(os.path.join(checkout.ROOT, "docs", "LANGUAGE.md"), encoding="utf-8") as text:
        return manual.page("jsstr-language", 7, version, "the language of the scripts that jsstr runs", text.read(), LANGUAGE_NOTES)


def where_page(version):
    about = (
        "For each line with a byte offset it writes FILE:LINE:COLUMN, the source line with a mark below the place, and what to write in place of what the language leaves out. "
        "For a script that threw it runs jsstr once more, and says which statement did. "
        "Lines and columns count from 1, columns in characters. A line ends at a line feed, a carriage return, both, U+2028 or U+2029. All other lines are written as they are."
    )
    return page("jsstr-where", 1, version, "explains the places that jsstr reports", [
        ("SYNOPSIS", synopsis(WHERE_CALLS)),
        ("DESCRIPTION", f"{roff(about)}\n{rows(WHERE_CALLS)}"),
        ("EXIT STATUS", "That of the command, or as told above; 125 where the tool itself can't go on."),
        see_also("jsstr.1", "jsstr-language.7"),
    ])


def sched_page(version):
    about = (
        "FILE has a line for each atomic step of some agents on one heap of strings. The program plays them on the pure machine. It writes a line for each step with the word that it found, "
        "and then a line for each string with its units, up to the first step that isn't enabled."
    )
    return page("jssched", 1, version, "plays a schedule of atomic steps on a heap of strings", [
        ("SYNOPSIS", synopsis(["jssched FILE"])),
        ("DESCRIPTION", roff(about)),
        ("EXIT STATUS", rows(SCHED_STATUSES)),
        see_also("jsstr.1"),
    ])


def paragraphs(comment):
    """The paragraphs of a comment of the header."""
    for it in re.split(r"\n\s*\n", comment):
        lines = (roff(line.strip()) for line in it.strip().splitlines())
        yield ".PP\n" + "\n".join(line.replace(r"\- ", ".IP \\(bu 2\n", 1) if line.startswith(r"\- ") else line for line in lines)


def described(header):
    """The header in its order: comments as paragraphs, and what is declared as it is."""
    for comment, code in re.findall(r"(?s)^/\*(.*?)\*/\n|((?:(?!^/\*).)+?\n)(?=^/\*|\Z)", header, re.MULTILINE):
        if comment:
            yield from paragraphs(comment)
        elif code.strip():
            yield f".PP\n.nf\n{roff(code.strip())}\n.fi"


def said_first(wrapper):
    """What the head of include/jsstr.hpp says, in paragraphs, and its lines of code as they are."""
    head = re.match(r"(?:// ?.*\n|//\n)*", wrapper)[0]
    for it in re.split(r"\n\n", re.sub(r"(?m)^// ?", "", head).strip("\n")):
        yield f".PP\n.nf\n{roff(it)}\n.fi" if it.startswith("    ") else f".PP\n{roff(it)}"


def library_page(version, header, unchecked, wrapper, others=()):
    """The page of the library: what the headers for C say, without the guards of C and C++, and the head of include/jsstr.hpp."""
    plain = re.sub(r"(?m)^#(?:ifndef|if|endif|ifdef|include).*\n(?:extern \"C\" \{\n|\}\n)?", "", f"{header}{unchecked}")
    plain = re.sub(r"(?m)^#define JSSTR_(?:UNCHECKED_)?H\n", "", plain)
    return page("jsstr", 3, version, "a heap of strings that threads share, for C and C++", [
        ("SYNOPSIS", ".nf\n#include <jsstr.h>\ncc $(pkg\\-config \\-\\-cflags jsstr) a.c $(pkg\\-config \\-\\-libs jsstr)\n.fi"),
        ("DESCRIPTION", "\n".join(described(plain))),
        ("C++", "\n".join(said_first(wrapper))),
        *([see_also(*others)] if others else []),
    ])


# ---- Completions

def quoted(text):
    return text.replace("'", r"'\''")


def bash():
    names = " ".join([*arguments.OPTIONS, "--help", "--version"])
    valued = "|".join(it.name for it in arguments.OPTIONS.values() if it.value and it.value != "FILE")
    return (
        "# Completes the arguments of jsstr.\n"
        "_jsstr() {\n"
        "  local current=${COMP_WORDS[COMP_CWORD]} before=${COMP_WORDS[COMP_CWORD-1]}\n"
        "  case $before in\n"
        "    --limit) COMPREPLY=($(compgen -W '32 64' -- \"$current\")); return ;;\n"
        f"    {valued}) COMPREPLY=(); return ;;\n"
        "  esac\n"
        "  case $current in\n"
        f"    -*) COMPREPLY=($(compgen -W '{names}' -- \"$current\")) ;;\n"
        "    *) compopt -o filenames; COMPREPLY=($(compgen -f -- \"$current\")) ;;\n"
        "  esac\n"
        "}\n"
        "complete -F _jsstr jsstr\n"
    )


def zsh():
    what = {"FILE": "FILE:_files", "L": "L:(32 64)", "N": "N:"}
    lines = [f"  '{it.name}{'=' if it.value else ''}[{quoted(it.about)}]{':' + what[it.value] if it.value else ''}' \\" for it in arguments.OPTIONS.values()]
    return "#compdef jsstr\n_arguments \\\n" + "\n".join(lines) + "\n  '(- *)--help[the options]' \\\n  '(- *)--version[the version]' \\\n  '*:FILE:_files'\n"


def fish():
    how = {"FILE": " -r", "L": " -x -a '32 64'", "N": " -x", None: ""}
    return "".join(f"complete -c jsstr -l {it.name[2:]}{how[it.value]} -d '{quoted(it.about)}'\n" for it in arguments.OPTIONS.values()) + "complete -c jsstr -l help -d 'the options'\ncomplete -c jsstr -l version -d 'the version'\n"
