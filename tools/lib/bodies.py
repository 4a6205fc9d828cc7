"""The wrong bodies of the crates: where they are, how they are read, and on which files their refusal rests.

A body is a file NAME.edit of the form that `rt help` gives: a line 'file: src/NAME.rt', then pairs of lines 'old: TEXT' and
'new: TEXT'. `rt ci` tries those of a crate's folder must-fail. Those of must-fail-more are beside it, since the kit counts
each other file below must-fail as a bad one.
"""
import functools, hashlib, os, re

GATE, MORE = "must-fail", "must-fail-more"
PARTS = ("src", "specs", "proofs")  # what a proof reads of a crate
MOST, MOST_CRATES = 60, 12  # bodies that the gate tries, and crates that have such
NAME = re.compile(r"[A-Za-z0-9_-][A-Za-z0-9_.-]*\.edit\Z")

class Body:
    """A wrong body: its crate, its folder, its name without .edit, and its text."""
    def __init__(self, crate, folder, name, text):
        self.crate, self.folder, self.name, self.text = crate, folder, name, text
        self.label = f"{crate}/{name}"

def read_text(path):
    with open(path, encoding="utf-8") as file:
        try:
            return file.read()
        except ValueError:
            raise OSError(f"{path} is no text in UTF-8") from None

def crates_of(top):
    """Of each crate of crates.txt, lowest first, its line and the crates that it uses itself."""
    lines = {}
    for line in read_text(f"{top}/crates.txt").splitlines():
        name, colon, used = line.split("#")[0].partition(":")
        if colon and name.split():
            lines[name.split()[0]] = line, used.split()
    return {name: (line, [it for it in used if it in lines]) for name, (line, used) in lines.items()}

def below(crates, name):
    """All crates below a crate."""
    found = list(crates[name][1])
    for it in found:
        found += [low for low in crates[it][1] if low not in found]
    return [it for it in crates if it in found]

def bodies_of(top, crate, folders=(GATE, MORE)):
    """The bodies of a crate, by folder and name."""
    found = []
    for folder in folders:
        at = f"{top}/crates/{crate}/{folder}"
        names = sorted(os.listdir(at)) if os.path.isdir(at) else []
        found += [Body(crate, folder, it[:-len(".edit")], read_text(f"{at}/{it}")) for it in names if NAME.match(it)]
    return found

def unread(top, crate):
    """The files of the two folders that are no bodies; a page may be there."""
    found = []
    for folder in (GATE, MORE):
        for at, _, names in os.walk(f"{top}/crates/{crate}/{folder}"):
            is_inside = at != f"{top}/crates/{crate}/{folder}"
            found += [f"{at}/{it}" for it in names if not it.endswith(".md") and (is_inside or not NAME.match(it))]
    return sorted(found)

def edited(text, folder):
    """The texts of the files that a body changes, by their path in the crate's folder, and what is wrong with it, or None."""
    path, old, texts, was = None, None, {}, {}
    for line in text.split("\n"):
        key, colon, rest = line.partition(":")
        rest = rest[1:] if rest.startswith(" ") else rest
        if not line.strip():
            continue
        if not colon or key not in ("file", "old", "new"):
            return texts, f"a line begins with none of 'file: ', 'old: ', 'new: ': {line[:60]}"
        if old is not None and key != "new":
            return texts, "an 'old:' line has no 'new:' line after it"
        if key == "file":
            path, old = rest.strip(), None
            if not path.startswith("src/") or os.path.normpath(path) != path:
                return texts, f"a 'file:' line names no file below src/: {path}"
            if path not in texts:
                try:
                    texts[path] = was[path] = read_text(f"{folder}/{path}")
                except OSError:
                    return texts, f"{path} cannot be read"
        elif key == "old":
            old = rest
            count = texts[path].count(old) if path and old else 0
            if count != 1:
                return texts, f"an 'old:' text is in {path or 'no file'} {count} times, and not once: {old[:80]}"
        elif old is None:
            return texts, "a 'new:' line has no 'old:' line before it"
        else:
            texts[path], old = texts[path].replace(old, rest), None
    if old is not None:
        return texts, "an 'old:' line has no 'new:' line after it"
    return texts, None if texts != was else "it changes nothing"

def sum_of(*parts):
    return hashlib.sha256(repr(parts).encode()).hexdigest()

@functools.lru_cache(None)
def files_sum(folder):
    """A sum of what a proof reads of a crate's folder."""
    found = []
    for part in PARTS:
        for at, folders, names in os.walk(f"{folder}/{part}"):
            folders.sort()
            for name in sorted(names):
                with open(f"{at}/{name}", "rb") as file:
                    found.append((os.path.relpath(f"{at}/{name}", folder), file.read()))
    return sum_of(found)

def rests_on(top, crates, body, kit):
    """A sum of all that a body's refusal rests on: its text, the files of its crate and of those below, HANDLES, the kit."""
    names = [*below(crates, body.crate), body.crate]
    handles = read_text(f"{top}/HANDLES") if os.path.isfile(f"{top}/HANDLES") else ""
    files = [(it, crates[it][0], files_sum(f"{top}/crates/{it}")) for it in names]
    return sum_of(kit, handles, body.name, body.text, files)[:12]

def faults(top):
    """What is wrong with the bodies of a repository, a line each."""
    crates, found, in_gate = crates_of(top), [], {}
    for crate in crates:
        names = [it.name for it in bodies_of(top, crate)]
        found += [f"{os.path.relpath(it, top)} is no NAME.edit right in {GATE} or {MORE}" for it in unread(top, crate)]
        found += [f"crates/{crate}: two bodies have the name {it}" for it in sorted({it for it in names if names.count(it) > 1})]
        for body in bodies_of(top, crate):
            fault = edited(body.text, f"{top}/crates/{crate}")[1]
            found += [f"crates/{crate}/{body.folder}/{body.name}.edit: {fault}"] if fault else []
            if body.folder == GATE:
                in_gate[crate] = in_gate.get(crate, 0) + 1
    if sum(in_gate.values()) > MOST:
        found.append(f"{sum(in_gate.values())} bodies are in {GATE}, and at most {MOST} may: move some to {MORE}")
    if len(in_gate) > MOST_CRATES:
        found.append(f"{len(in_gate)} crates have bodies in {GATE}, and at most {MOST_CRATES} may: move those of some to {MORE}")
    return found
