"""What a configuration says of its rules, for those who read alerts: messages, classes, and the rules as they are there.

Files, includes and variables are read as docs/manual/configuration.md says. Whether a rule is accepted isn't looked at.
Used by alerts and check_rules.
"""
import functools, os, re
from collections import namedtuple

Rule = namedtuple("Rule", "gid sid msg text file line")
VARIABLE = re.compile(r"\$(?:(\w+)|\((\w+)(?::-([^)]*))?\))")
CLASS = re.compile(r"config\s+classification\s*:(.*)", re.S)
WORD = re.compile(r"[ \t]*(?![ \t])((?:[^ \t\[]|\[[^\[\]]*\])*)(?=[ \t]|\Z)")  # one without brackets in brackets
OPTION = re.compile(r'[^"\\;]*(?:(?:\\.|"[^"\\]*(?:\\.[^"\\]*)*")[^"\\;]*)*;', re.S)
MOST_DEEP = 16

class Rules:
    """The rules by gid and sid, and the classes in their order, each as its name and its text."""
    def __init__(self):
        self.by_mark, self.classes = {}, []

    def class_text(self, place):
        """The text of the class at a place, from 1 on."""
        return self.classes[place - 1][1] if 1 <= place <= len(self.classes) else ""

    def add_class(self, value):
        name, _, rest = value.partition(",")
        name, text = name.strip(" \t"), rest.partition(",")[0].strip(" \t")
        if name not in (it[0] for it in self.classes):
            self.classes.append((name, text))

    def add_rule(self, text, file, line):
        options = {}
        for option in options_of(text):
            name, _, value = option.partition(":")
            options.setdefault(name.strip(), value.strip())
        gid, sid = options.get("gid", "1"), options.get("sid", "")
        if gid.isdecimal() and sid.isdecimal():
            rule = Rule(int(gid), int(sid), unquoted(options.get("msg", "")), tidy(text), file, line)
            self.by_mark.setdefault((rule.gid, rule.sid), rule)

@functools.lru_cache(maxsize=16384)
def word_spans(rule):
    """Where the seven words of a rule's header begin and end: they are between blanks outside brackets; the last ones may be
    empty."""
    spans, at = [], 0
    for _ in range(7):
        if found := WORD.match(rule, at):
            spans.append(found.span(1))
            at = found.end()
            continue
        while at < len(rule) and rule[at] in " \t":
            at += 1
        begin, depth = at, 0
        while at < len(rule) and (depth or rule[at] not in " \t"):
            depth = max(depth + (rule[at] == "[") - (rule[at] == "]"), 0)
            at += 1
        spans.append((begin, at))
    return tuple(spans)

def options_start(rule):
    """Where what follows a rule's header begins."""
    at = word_spans(rule)[6][1]
    return at + len(rule[at:]) - len(rule[at:].lstrip(" \t"))

@functools.lru_cache(maxsize=16384)
def option_spans(rule):
    """Where the options of a rule begin and end, each without its `;` and the blanks around it."""
    at = options_start(rule) + 1
    end, spans = rule.rfind(")"), []
    end = end if end >= at else len(rule)
    while found := OPTION.match(rule, at, end):
        text = rule[at:found.end() - 1]
        front = len(text) - len(text.lstrip(" \t"))
        spans.append((at + front, at + max(len(text.rstrip(" \t")), front)))
        at = found.end()
    return tuple(spans)

def options_of(rule):
    """The options of a rule, each without its `;`."""
    return [rule[begin:end] for begin, end in option_spans(rule)]

def unquoted(value):
    """What a quoted text says: a backslash gives the letter after it."""
    return re.sub(r"\\(.)", r"\1", value[1:-1], flags=re.S) if value[:1] == '"' and value[-1:] == '"' else value

def tidy(rule):
    """A rule's text with one blank in the place of several, but for those in quotes."""
    return re.sub(r'("(?:\\.|[^"\\])*")|[ \t]+', lambda it: it[1] or " ", rule)

def text_of(data):
    """The text of bytes: UTF-8, and where they aren't, each byte the letter with its number."""
    try:
        return data.decode()
    except UnicodeDecodeError:
        return data.decode("latin-1")

def cut_lines(text):
    """The lines of a text or of bytes, without a return before a line feed."""
    feed, back = ("\n", "\r") if isinstance(text, str) else (b"\n", b"\r")
    *lines, last = text.split(feed)
    return [*(it.removesuffix(back) for it in lines), last]

def joined_lines(name):
    """The lines of a file, those joined that end in a backslash: the number of the first, and the text."""
    with open(name, "rb") as file:
        lines = [text_of(it) for it in cut_lines(file.read())]
    at = 0
    while at < len(lines):
        first, text, goes_on = at, "", True
        while goes_on and at < len(lines):  # the file's last line may end in a backslash, too
            goes_on = lines[at].endswith("\\")
            text += lines[at][:-1] if goes_on else lines[at]
            at += 1
        yield first + 1, text.strip(" \t")

def expand(text, values):
    return VARIABLE.sub(lambda it: values.get(it[1] or it[2], it[3] if it[3] is not None else it[0]), text)

def read_into(rules, name, values, fixed, depth):
    for number, text in joined_lines(name):
        word, rest = [*re.split(r"[ \t]+", text, maxsplit=1), ""][:2]
        if word == "alert":
            rules.add_rule(text, name, number)
        elif found := CLASS.match(text):
            rules.add_class(found[1])
        elif word in ("var", "ipvar", "portvar"):
            key, value = [*re.split(r"[ \t]+", rest, maxsplit=1), ""][:2]
            if key not in fixed:
                values[key] = expand(value, values)
        elif word == "include" and depth < MOST_DEEP:
            asked = expand(rest, values)
            path = asked if asked.startswith("/") else os.path.join(os.path.dirname(name), asked)
            read_into(rules, path, values, fixed, depth + 1)

def read(name, defined=None):
    """What the configuration of this name says, with the variable that `-S` defines."""
    fixed = dict([defined.split("=", 1)] if defined and "=" in defined else [])
    rules = Rules()
    read_into(rules, name, dict(fixed), fixed, 0)
    return rules
