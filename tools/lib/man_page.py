"""The man pages snort(8) and snort_eve(1), of pages of the manual, and those of the scripts, of their help. Used by package.

What the pages say stays as it is: headings, paragraphs, lists, tables and examples become their requests of man(7), and a
link becomes its text, in italics. A table's first column becomes the tags of a list. ./snort is called snort here, and rows
of tables that are about the launcher of that name, or about what no package has, are left out.

A script's help says in its first sentence what it does. Its lines that begin with blanks stay lines, and the first
such block that begins with the script's name is how it is called. So do lists with columns. What else it says are paragraphs.
"""
import re, textwrap
from collections import namedtuple

# The heads of a page, each with the sections below it: a page, and a heading there, "" for what is in front of the
# first one. A section has all that is below it.
WORDS, START, EVE = "docs/manual/command-words.md", "docs/manual/getting-started.md", "docs/manual/snort_eve.md"
PARTS = (
    ("DESCRIPTION", (("README.md", ""), (WORDS, ""), (START, "2. First alerts"), (START, "3. A rule of your own"))),
    ("OPTIONS", ((WORDS, "What to read"), (WORDS, "How to work"), (WORDS, "What to write"), (WORDS, "How words are written"))),
    ("EXIT STATUS", (("docs/manual/messages.md", "Exit statuses"),)),
    ("NO ALERTS", ((START, "5. No line?"),)),
    ("EXAMPLES", ((WORDS, "Examples"), (WORDS, "A generated capture"))))
EVE_PARTS = (
    ("DESCRIPTION", ((EVE, ""),)), ("OPTIONS", ((EVE, "Words"),)), ("EXIT STATUS", ((EVE, "Exit statuses"),)),
    ("EXAMPLES", ((EVE, "Examples"),)))
# Of a program the section and what that is about, the page with its words, and the heads.
Page = namedtuple("Page", "section kind words parts")
PAGES = {"snort": Page(8, "System administration", WORDS, PARTS), "snort_eve": Page(1, "User Commands", EVE, EVE_PARTS)}
NOT_HERE = ("the launcher `./snort`", "`tools/first_look`")

HEADING = re.compile(r"(#+) (.*)")
USAGE = re.compile(r"(\w+(?: (?:-\S+|[A-Z]+|\[options\]|\[[A-Z]+\.\.\]))*)(?: +(.*))?")
INLINE = re.compile(r"`([^`]+)`|\*\*([^*]+)\*\*|\[((?:`[^`]*`|[^]])+)\]\([^)]*\)")
WITH_VALUE = re.compile(r"(-\S+) ([A-Z][A-Z=]*)")

class NoSection(Exception):
    """A section that the manual doesn't have."""

def plain(text):
    """Text as roff shows it."""
    return text.replace("\\", r"\e").replace("-", r"\-").replace("'", r"\(aq").replace("`", r"\(ga").replace("~", r"\(ti") \
        .replace("^", r"\(ha")

def line(text):
    """A line that roff doesn't take for a request."""
    return r"\&" + text if text.startswith((".", "'")) else text

def wrapped(text):
    """A sentence in lines, as roff sources are written."""
    return [line(it) for it in textwrap.wrap(text, 79, break_long_words=False, break_on_hyphens=False)]

def called(text):
    return text.replace("./snort", "snort")

def code(text):
    """Words of code: in bold, and what stands for a value in italics."""
    with_value = WITH_VALUE.fullmatch(text)
    if with_value:
        return rf"\fB{plain(with_value[1])}\fR \fI{plain(with_value[2])}\fR"
    return rf"\fB{plain(called(text))}\fR"

def inline(text):
    """A sentence, with its code, what is bold, and the texts of its links."""
    out, at = "", 0
    for found in INLINE.finditer(text):
        out += plain(text[at:found.start()])
        if found[1] is not None:
            out += code(found[1])
        elif found[2] is not None:
            out += rf"\fB{plain(found[2].replace('`', ''))}\fR"
        else:
            out += inline(found[3]) if "`" in found[3] else rf"\fI{plain(found[3])}\fR"
        at = found.end()
    return out + plain(text[at:])

def paragraph(text):
    return [".PP", *wrapped(inline(text))]

def example(lines):
    return [".PP", ".RS 4", ".EX", *(line(plain(called(it))) for it in lines), ".EE", ".RE"]

def cells(row):
    return [it.strip().replace(r"\|", "|") for it in re.split(r"(?<!\\)\|", row)[1:-1]]

def table(rows):
    """A list whose tags are the first column. What a column of a value or a message has comes after the rest."""
    head, *rows = [cells(it) for it in rows if not re.fullmatch(r"\|[-|]+", it) and not any(part in it for part in NOT_HERE)]
    out = []
    for row in rows:
        told = [it for name, it in zip(head[1:], row[1:]) if it and name not in ("Value", "Message")]
        told += [f"{name}: {it}." for name, it in zip(head[1:], row[1:]) if it and name in ("Value", "Message")]
        text = " ".join(it if it.endswith(".") else it + "." for it in told)
        out += [".TP", line(inline(row[0]))] if row[0] else [".IP"]
        out += wrapped(inline(text))
    return out

def blocks(lines):
    """Lines of a page in groups: what a group is, and its lines."""
    at = 0
    while at < len(lines):
        kind, end = "paragraph", at + 1
        if lines[at].startswith("```"):
            end = lines.index("```", end) + 1
            yield "example", lines[at + 1:end - 1]
        elif lines[at]:
            kind = "table" if lines[at].startswith("|") else "list" if lines[at].startswith("- ") else \
                "heading" if HEADING.match(lines[at]) else "paragraph"
            while kind != "heading" and end < len(lines) and lines[end] and not lines[end].startswith("```"):
                end += 1
            yield kind, lines[at:end]
        at = end

def section(top, name, heading):
    """The lines of a section, and below its own heading those of smaller ones."""
    with open(f"{top}/{name}", encoding="utf-8") as file:
        lines = file.read().splitlines()
    depth, first, is_code = 0, None, False
    for number, text in enumerate(lines):
        is_code ^= text.startswith("```")
        here = None if is_code else HEADING.fullmatch(text)
        if here and first is not None and len(here[1]) <= depth:
            return lines[first:number]
        if here and first is None and (here[2] == heading or not heading):
            depth, first = len(here[1]) + (not heading), number + 1
    if first is None:
        raise NoSection(f"{name} has no section {heading}")
    return lines[first:]

def requests(kind, lines):
    if kind == "example":
        return example(lines)
    if kind == "table":
        return table(lines)
    if kind == "list":
        return [it for text in lines for it in (r".IP \(bu 2", *wrapped(inline(text[2:])))]
    if kind == "heading":
        return [f".SS {plain(HEADING.fullmatch(lines[0])[2])}"]
    return paragraph(" ".join(lines))

def synopsis(lines):
    """The commands of an example that shows them, without what follows each."""
    out = []
    for text in lines:
        words = USAGE.fullmatch(text)[1].replace("[options]", r"[\fIoptions\fR]").split(" ")
        out += [" ".join(rf"\fI{it}\fR" if it.isupper() and it.isalpha() else it if it.startswith("[") else rf"\fB{plain(it)}\fR"
                         for it in words), ".br"]
    return out[:-1]

def help_blocks(text):
    """A help text in groups: whether it is lines that stay lines, and these. A list with columns stays lines, too."""
    out = []
    for group in re.split(r"\n\s*\n", text.strip("\n")):
        lines = group.splitlines()
        first = next((at for at, it in enumerate(lines) if not it.startswith("  ")), len(lines))
        for is_code, part in [(True, lines[:first]), (re.search(r"^  |\S   +\S", "\n".join(lines[first:]), re.M), lines[first:])]:
            if part:
                out.append((bool(is_code), textwrap.dedent("\n".join(part)).splitlines()))
    return out

def first_sentence(text):
    return re.split(r"(?<=\.) ", text, maxsplit=1)

def script_page(name, text, version, date, after):
    """The man page of a script that is called so, of its help."""
    blocks = [it for it in help_blocks(text) if not it[1][0].startswith("usage:")]
    if not blocks or blocks[0][0]:
        raise NoSection(f"the help of {name} doesn't begin with what it does")
    what, *rest = first_sentence(" ".join(blocks[0][1]))
    usage = next((lines for is_code, lines in blocks if is_code and lines[0].startswith(name)), None)
    if not usage:
        raise NoSection(f"the help of {name} doesn't say how it is called")
    out = [rf'.TH {plain(name.upper())} 1 {date} "{plain(version)}" "User Commands"', ".SH NAME",
           rf"{plain(name)} \- {plain((what[0].lower() + what[1:].rstrip('.')).replace('`', ''))}",
           ".SH SYNOPSIS", ".nf", *(line(plain(it)) for it in usage), ".fi", ".SH DESCRIPTION"]
    for is_code, lines in [(False, rest), *blocks[1:]]:
        if lines and lines != usage:
            out += example(lines) if is_code else paragraph(" ".join(lines))
    for head, texts in after:
        out += [f".SH {head}", *(it for text in texts for it in paragraph(text))]
    return joined(out)

def joined(lines):
    """The page of its lines. A paragraph begins after a heading by itself."""
    return "\n".join(it for before, it in zip(["", *lines], lines)
                     if not (it == ".PP" and before.startswith((".SH", ".SS")))) + "\n"

def about(top, name):
    """What a program is about, as the title of its page of the manual says it."""
    with open(f"{top}/{PAGES[name].words}", encoding="utf-8") as file:
        return file.readline().strip().removeprefix(f"# {name}: ")

def page(top, about, version, date, after, name="snort"):
    """The man page of a program, of the manual below a folder: what it is about, heads with paragraphs after the manual's."""
    part, kind, words, parts = PAGES[name]
    usage = next(lines for kind, lines in blocks(section(top, words, "")) if kind == "example")
    out = [rf'.TH {plain(name.upper())} {part} {date} "{plain(version)}" "{kind}"', ".SH NAME",
           rf"{plain(name)} \- {plain(about)}", ".SH SYNOPSIS", *synopsis(usage)]
    for head, sections in parts:
        out.append(f".SH {head}")
        for file, heading in sections:
            if heading and len(sections) > 1 and heading.upper() != head:
                out.append(f".SS {plain(re.sub(r'^[0-9]+[.] ', '', heading))}")
            out += [it for kind, lines in blocks(section(top, file, heading)) if lines != usage for it in requests(kind, lines)]
    for head, texts in after:
        out += [f".SH {head}", *(it for text in texts for it in paragraph(text))]
    return joined(out)
