"""The manual pages, in roff: from the texts of --help, and from the pages what no help says."""
import re

import pages

SAFETY = ("It is not a safety system: it has no emergency stop and no interlock, and does not know whether what a "
          "device answers is true. Read the first evening in /usr/share/doc/cuectl before you hang anything on it.")
FILES = {
    "/var/lib/cuectl/NAME": "the folder of the show NAME: its store, a.area and b.area, and its file, evening.toml",
    "/etc/cuectl/NAME.conf": "what its units are told, if it is there: CUEDESK_PORT=9100, CUEDESK_HTTP=8080, and for a "
                             "relay CUEDESK_PAGE=--relay /run/cuectl/NAME/relay",
    "/var/log/cuectl/NAME": "the log of its controller, a file for each day",
    "/usr/share/cuectl/evening.toml": "a show file to begin with",
}


def roff(text):
    """A text in which nothing is taken for a request, with code in bold."""
    text = text.replace("\\", "\\e").replace("-", "\\-")
    text = re.sub(r"`([^`]+)`", r"\\fB\1\\fR", re.sub(r"\*\*?([^*]+)\*\*?", r"\\fI\1\\fR", text))
    return re.sub(r"^([.'])", r"\\&\1", text, flags=re.M)


def shown(lines):
    return [".PP", ".RS 4", ".nf", *(roff(line) for line in lines), ".fi", ".RE"]


def listed(pairs):
    return [line for name, says in pairs for line in (".TP", f"\\fB{roff(name)}\\fR", roff(says) or ".br")]


def of_page(text):
    """A text of a page, in roff."""
    made = []
    for kind, piece in pages.pieces(pages.without_links(text)):
        if kind == "shown":
            made += shown(line[4:] for line in piece.splitlines())
        elif kind == "table":
            made += [line for first, *rest in pages.cells(piece)[1:]
                     for line in (".TP", roff(first), roff(". ".join(rest)))]
        elif kind == "items":
            made += [line for point in pages.items(piece) for line in (".IP \\(bu 2", roff(point))]
        elif kind == "words":
            made += [".PP", roff(" ".join(piece.split()))]
    return made


def options(command):
    for option in command.options:
        takes = f" {option.takes.upper()}" if option.takes else ""
        yield ", ".join(f"{name}{takes}" for name in option.names), option.says


def of_command(command):
    """A command with its arguments and options; those of each command are left out."""
    made = [f".SS {' '.join(command.words)}", roff(command.says), *shown([command.usage])]
    own = [pair for pair in options(command) if "--help" not in pair[0]]
    return [*made, *listed(command.arguments), *listed(own), *(line for below in command.commands
                                                              for line in of_command(below))]


def top(name, says, version, date):
    return [f'.TH {name.upper()} 1 "{date}" "{name} {version}" "cuectl"', ".SH NAME",
            f"{name} \\- {roff(says[:1].lower() + says[1:])}"]


def as_printed(name, says, text, version, date):
    """The page of a program whose help is shown as it is."""
    return "\n".join([*top(name, says, version, date), ".SH DESCRIPTION", *shown(text.splitlines())]) + "\n"


def manual(program, version, date, ends):
    """The page of a program with commands; `ends` has the heads and texts that stand below them."""
    made = [*top(program.name, program.says, version, date), ".SH SYNOPSIS",
            *(f".B {roff(each.usage)}\n.br" for each in program.commands)]
    made += [".SH DESCRIPTION", f"{roff(program.says)}.", ".PP", roff(SAFETY), ".SH COMMANDS"]
    made += [line for each in program.commands for line in of_command(each)]
    for head, text in [("OPTIONS", listed(options(program))), *ends]:
        made += [f".SH {head}", *text]
    return "\n".join(made) + "\n"


def of_programs(cuectl, cuedesk, version, date):
    """cuectl(1) and cuedesk(1), by their names."""
    status = of_page(pages.section("docs/OPERATING.md", "How a command ends"))
    files = listed(FILES.items())
    also = {name: [f".BR {other} (1),", "/usr/share/doc/cuectl/docs/OPERATING.md"]
            for name, other in (("cuectl", "cuedesk"), ("cuedesk", "cuectl"))}
    ends = {"cuectl": [("EXIT STATUS", status), ("FILES", files)],
            "cuedesk": [("ENVIRONMENT", listed([("CUEDESK_PORT", " ".join(cuedesk.ends))])), ("EXIT STATUS", status),
                        ("FILES", files)]}
    return {f"{each.name}.1": manual(each, version, date, [*ends[each.name], ("SEE ALSO", also[each.name])])
            for each in (cuectl, cuedesk)}
