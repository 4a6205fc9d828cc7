"""What expressions mean else here than in Snort, by docs/manual/pcre.md. Used by check_rules."""
import re, warnings

def holds_after_all(text, flags):
    """Whether an expression holds after a last line feed, where nothing is left to match."""
    some = sum(getattr(re, it.upper()) for it in flags if it in "imsx")
    try:
        with warnings.catch_warnings():
            warnings.simplefilter("ignore")
            return re.compile(text.encode("utf-8", "surrogateescape"), some).match(b"\n", 1) is not None
    except (re.error, RecursionError, OverflowError):
        return False

OUTSIDE, CLASS, OTHER = range(3)

def pieces(text):
    """The letters of an expression, or letters after a backslash, and whether they are within a class; OTHER is what ends
    one, and the name of a class in it."""
    at, begin = 0, None
    while at < len(text):
        size = 2 if text[at] == "\\" else 1
        named = begin is not None and re.compile(r"\[:\^?\w+:\]").match(text, at)
        piece = named[0] if named else text[at:at + size]
        ends = begin is not None and piece == "]" and text[begin:at] not in ("", "^")
        yield piece, OUTSIDE if begin is None else OTHER if named or ends else CLASS
        at += len(piece)
        if begin is None and piece == "[":
            begin = at
        elif ends:
            begin = None

NUMBER = re.compile(r"\\(?:0([0-7]{0,2})|x([0-9A-Fa-f]?)(?![0-9A-Fa-f{])|(e))")

def with_numbers(text):
    """An expression in which letters by their number have two hex digits."""
    found = lambda it: int(it[1] or "0", 8) if it[1] is not None else int(it[2] or "0", 16) if it[2] is not None else 27
    out, at = [], 0
    while at < len(text):
        match = NUMBER.match(text, at)
        out.append(f"\\x{found(match):02x}" if match else text[at:at + (2 if text[at] == "\\" else 1)])
        at += len(match[0]) if match else len(out[-1])
    return "".join(out)

def rewritten(option, is_last):
    """A pcre that means here what the option means in Snort, as far as it is known; nothing that goes on where a last one ends
    tells `$` from `\\n?$`."""
    found = re.match(r'(pcre[ \t]*:[ \t]*!?"/)(.*)(/([A-Za-z]*)")\Z', option, re.S)
    if not found:
        return option
    out, before = [], ""
    for piece, place in pieces(with_numbers(found[2])):
        if piece in ("\\<", "\\>"):
            piece = piece[1:]
        elif place == CLASS and (piece == "[" or piece == before and piece in ("&", "~")):
            piece = f"\\{piece}"
        out.append((piece, place))
        before = piece if place == CLASS else ""
    ends = [at for at, it in enumerate(out) if it == ("$", OUTSIDE)]
    if ends == [len(out) - 1] and is_last and "m" not in found[4]:
        out[-1] = (r"\n?$", OUTSIDE)
    return found[1] + "".join(it for it, _ in out) + found[3]

def meanings(option):
    """What an expression means else here than in Snort."""
    found = re.match(r'pcre\s*:\s*!?"/(.*)/([A-Za-z]*)"\Z', option, re.S)
    if not found:
        return
    text, flags = found[1], found[2]
    outside, classes = [], ""  # letters, or letters after a backslash; what is within the classes, a line each
    for piece, place in pieces(text):
        if place == CLASS:
            classes += piece
        elif place == OUTSIDE:
            outside.append(piece)
            classes += "\n" if piece == "[" else ""
    plain = re.sub(r"\\.", "", classes, flags=re.S)
    if "\\<" in outside or "\\>" in outside:
        yield r"\< and \> are the ends of a word; write < and >"
    if "$" in outside and "m" not in flags:
        yield r"$ is the very end, and doesn't match before a last line feed; write \n?$"
    if "m" in flags and "^" in outside and holds_after_all(text, flags):
        yield r"^ matches after a last line feed, too; write \r?\n after it for an empty line"
    if re.search(r"\(\?[A-Za-z-]*R", "".join(it if len(it) == 1 else " " for it in outside)):
        yield "(?R) is a flag, and not the expression again"
    if "x" in flags and re.search(r"[ \t#]", plain):
        yield r"blanks and # in a class mean nothing under x; write \x20"
    for signs in ("&&", "--", "~~"):
        if signs in classes:
            yield f"{signs} in a class sets two classes against each other; put a backslash before the second"
    for before, after in zip(outside, outside[1:]):
        if after == "+" and before in ("*", "+", "?", "}"):
            yield f"{before}+ repeats the repetition, and keeps nothing from being given back"
            break
    if "[" in plain:
        yield r"[ in a class begins a class within it; write \["
    for letter, what in (("\\u", r"\u is a letter by its number"), ("\\v", r"\v is the byte 0b alone; write [\n\x0b\f\r]")):
        if letter in outside:
            yield what
