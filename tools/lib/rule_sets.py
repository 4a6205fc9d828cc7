"""A configuration as its files and lines, copies of which the program judges. Used by check_rules, why and profile_rules."""
import os, re, subprocess
from collections import namedtuple

import rule_texts, scripts

# The line's number among the files, its own one from 1 on, how many lines it is, its text, and for each of these where it
# begins in the text, its number, and the column before it.
Line = namedtuple("Line", "place number count text parts")
ACTIONS = ("alert", "pass", "log", "activate", "dynamic", "drop", "reject", "sdrop")
CLASS = re.compile(r"config[ \t]+classification[ \t]*:")
VARIABLE = re.compile(r"(?:var|ipvar|portvar)[ \t]")
TOLD = re.compile(r"(ERROR|WARNING): ([^(]+)\((\d+)\) (.*)\Z", re.S)
MARK = "\ufeff"  # the byte order mark
MOST_FILES = 4096

def cut_word(text):
    """The first word of a line, and what follows it."""
    return [*re.split(r"[ \t]+", text, maxsplit=1), ""][:2]

def is_rule(line):
    return cut_word(line.text)[0] in ACTIONS

def in_copy(text):
    """A line for a copy: after a backslash or a return at its end a blank keeps the next line apart."""
    return text + " " * text.endswith(("\\", "\r"))

def mended(lines):
    """The lines as Snort 2.9 reads them, for one that here reads otherwise; and what was changed, by the numbers of lines."""
    out, changed, goes_on = [], [], False
    for number, line in enumerate(lines, 1):
        text, what = line, None
        if number == 1 and text.startswith(MARK):
            text = text.removeprefix(MARK)
            changed.append((1, "a byte order mark is left out"))
        front = text.lstrip(" \t")[:1]
        if not goes_on and front == "#" and text.endswith("\\"):
            text, what = text.rstrip("\\"), "the backslash of a comment is left out"
        elif not goes_on and front == ";":
            text, what = f"#{text}".rstrip("\\"), "a line that begins with ; is a comment"
        elif (goes_on or front != "#") and re.search(r"\\[ \t]+\Z", text):
            text, what = text.rstrip(" \t"), "a blank after the backslash is left out"
        out.append(text)
        changed += [(number, what)] * (what is not None)
        goes_on = text.endswith("\\")
    return out, changed

class File:
    """A file of the configuration: its name as it was asked for, its lines as they are there, and the joined ones."""
    def __init__(self, name, place, is_mended=False):
        self.name, self.changed = name, []
        with open(name, "rb") as file:
            self.lines = rule_texts.cut_lines(file.read().decode("utf-8", "surrogateescape"))
        if is_mended:
            self.lines, self.changed = mended(self.lines)
        self.joined = list(self.joined_lines(place))

    def joined_lines(self, place):
        at = 0
        while at < len(self.lines):
            first, text, parts, goes_on = at, "", [], True
            while goes_on and at < len(self.lines):  # the file's last line may end in a backslash, too
                line, at = self.lines[at], at + 1
                goes_on = line.endswith("\\")
                parts.append((len(text), at, 0))
                text += line[:-1] if goes_on else line
            bare = text.strip(" \t")
            front = len(text) - len(text.lstrip(" \t"))
            if bare:
                moved = [(max(begin - front, 0), number, max(front - begin, 0)) for begin, number, _ in parts]
                yield Line(place, first + 1, at - first, bare, moved)

class Configuration:
    """All files, each at the place at which it is read first; `includes` says which one a line includes.

    `faults` are lines by themselves: (line, text). Lines are mended where that is asked for.
    """
    def __init__(self, name, defined=None, is_mended=False):
        self.files, self.includes, self.faults, self.is_mended = [], {}, [], is_mended
        self.fixed = dict([defined.split("=", 1)] if defined else [])
        self.values = dict(self.fixed)
        self.read(name, 0)

    def expand(self, text):
        return rule_texts.expand(text, self.values)

    def read(self, name, depth):
        file = File(name, len(self.files), self.is_mended)
        place = len(self.files)
        self.files.append(file)
        for line in file.joined:
            word, rest = cut_word(line.text)
            if word in ("var", "ipvar", "portvar"):
                key, value = cut_word(rest)
                if key not in self.fixed:
                    self.values[key] = self.expand(value)
            elif word == "include":
                self.include(line, self.expand(rest), name, depth)
        return place

    def include(self, line, asked, name, depth):
        """Reads what a line includes; one that the program refuses stays for it to say so."""
        if depth >= rule_texts.MOST_DEEP or len(self.files) >= MOST_FILES or "$" in asked:
            return
        path = asked if asked.startswith("/") else os.path.join(os.path.dirname(name), asked)
        try:
            self.includes[line.place, line.number] = self.read(path, depth + 1)
        except (OSError, ValueError) as fault:
            self.faults.append((line, f"cannot read {path}: {getattr(fault, 'strerror', fault)}"))

    def name(self, line):
        return self.files[line.place].name

    def lines(self, place=0):
        """The lines in the order in which they are read, each file in the place of its include."""
        for line in self.files[place].joined:
            if (line.place, line.number) in self.includes:
                yield from self.lines(self.includes[line.place, line.number])
            else:
                yield line

    def write(self, folder, gone):
        """Writes copies into a folder, file by file under its number, without these lines."""
        for place, file in enumerate(self.files):
            texts = [""] * len(file.lines)
            for line in file.joined:
                if (place, line.number) not in gone:
                    included = self.includes.get((place, line.number))
                    texts[line.number - 1] = in_copy(line.text) if included is None else f"include {included}"
            write(f"{folder}/{place}", texts)

def write(path, texts):
    try:
        with open(path, "wb") as out:
            out.write("\n".join([*texts, ""]).encode("utf-8", "surrogateescape"))
    except OSError as fault:
        raise scripts.Stop(f"cannot write {path}: {fault.strerror}") from None

def told(folder, name, words):
    """What -T says of a file in a folder: its status and the lines with ERROR and WARNING, each as (word, file, line, text)."""
    ran = subprocess.run([scripts.program(), "-T", "--skip-refused", "-c", name, *words], cwd=folder, capture_output=True)
    lines = ran.stderr.decode("utf-8", "surrogateescape").split("\n")
    said = [match.groups() for match in map(TOLD.match, lines) if match]
    if ran.returncode not in (0, 1) or ran.returncode == 1 and not any(it[0] == "ERROR" for it in said):
        raise scripts.Stop("\n".join(it for it in lines if it.startswith("ERROR")) or f"status {ran.returncode}")
    return ran.returncode, [(word, file, int(number), text) for word, file, number, text in said]
