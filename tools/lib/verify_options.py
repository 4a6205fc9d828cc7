"""Rule lines, cut into their options, as bytes. Used by verify.

docs/manual/rules.md says how options are written: in double quotes a `;` is part of the value, and a backslash takes the next
byte as it is.
"""
import re

RULE = re.compile(rb"(?:alert|pass)[ \t]")
BEGIN = re.compile(rb"(?<!\$)\(")  # of the options; `$(NAME)` is a variable of the header
CONTENT = re.compile(rb"content\s*:\s*\"")

def options_of(line):
    """The options of a rule line, each without its `;`, in their order; none of any other line."""
    begin, end = BEGIN.search(line), line.rfind(b")")
    if not RULE.match(line) or not begin:
        return []
    out, start, is_quoted, at = [], begin.end(), False, begin.end()
    while at < end:
        letter = line[at:at + 1]
        if letter == b"\\":
            at += 2
            continue
        is_quoted ^= letter == b'"'
        if letter == b";" and not is_quoted:
            out.append(line[start:at].strip(b" \t"))
            start = at + 1
        at += 1
    return out

def rule_of(line, options):
    """A rule line with these options in the place of its own."""
    return line[:BEGIN.search(line).end()] + b" ".join(it + b";" for it in options) + b")"

def value_of(line, name):
    """The value of a rule's option of this name, or None."""
    for it in options_of(line):
        word, colon, value = it.partition(b":")
        if word.strip(b" \t") == name and colon:
            return value.strip(b" \t")

def sid_of(line, name=b"sid"):
    """The number of a rule, or that of another option; None of a line that has none."""
    value = value_of(line, name)
    return int(value) if value and value.isdigit() else None

def is_with(options, *names):
    """Whether one of the options has one of these names."""
    return any(it.partition(b":")[0].strip(b" \t") in names for it in options)
