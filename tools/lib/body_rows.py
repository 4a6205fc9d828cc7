"""What came of the wrong bodies when they were last tried: docs/wrong_bodies.tsv, and a table by crates in docs/GATE.md."""
import contextlib, fcntl, os, re, shutil

from bodies import bodies_of, read_text
from body_trials import WELL

# "files" is a sum of all that the answer rests on: a commit's id doesn't outlive a rebase, and says nothing of changes beside it.
COLUMNS = ["crate", "body", "answer", "seconds", "day", "commit", "files", "where"]
TABLE = re.compile(r"\| Crate \| Tried \|.*\n\|[-|]+\n((?:\|.*\n)*)")

def read_rows(top):
    """The rows by crate and body."""
    try:
        lines = read_text(f"{top}/docs/wrong_bodies.tsv").splitlines()
    except FileNotFoundError:
        return {}
    rows = [dict(zip(COLUMNS, line.split("\t"))) for line in lines[1:] if line.count("\t") == len(COLUMNS) - 1]
    return {(it["crate"], it["body"]): it for it in rows}

@contextlib.contextmanager
def alone(folder):
    """Keeps other runs from writing meanwhile."""
    held = os.open(folder, os.O_RDONLY)
    try:
        fcntl.flock(held, fcntl.LOCK_EX)
        yield
    finally:
        os.close(held)

def write_text(path, text):
    """Writes a file whole or not at all, and not where it has this text."""
    if os.path.isfile(path) and read_text(path) == text:
        return
    made = f"{path}.{os.getpid()}"
    try:
        with open(made, "w", encoding="utf-8") as file:
            file.write(text)
        if os.path.exists(path):
            shutil.copymode(path, made)
        os.replace(made, path)
    finally:
        if os.path.exists(made):
            os.remove(made)

def by_crates(top, crates, rows):
    """The rows of the page's table: of each crate what the last tries of its bodies came to, and when that was."""
    lines = []
    for crate in crates:
        found = bodies_of(top, crate)
        tried = [rows[crate, it.name] for it in found if (crate, it.name) in rows]
        days = sorted({(it["day"], it["commit"]) for it in tried})
        seconds = sum(int(it["seconds"]) for it in tried if it["seconds"].isdigit())
        if found:
            well = sum(it["answer"] in WELL for it in tried)
            lines.append([crate, len(tried), well, seconds, *(days[-1] if days else ("-", "-"))])
    return [*lines, ["All", *(sum(it[at] for it in lines) for at in range(1, 4)), "", ""]]

def record(top, crates, made):
    """Adds rows to what was tried before; those of bodies that are gone go, too."""
    with alone(f"{top}/docs"):
        rows = {**read_rows(top), **made}
        there = {(crate, it.name) for crate in crates for it in bodies_of(top, crate)}
        kept = [[rows[key][it] for it in COLUMNS] for key in sorted(rows) if key in there]
        one_line = lambda cells: "\t".join(re.sub(r"[\t\n\r]", " ", it) for it in cells) + "\n"
        write_text(f"{top}/docs/wrong_bodies.tsv", "".join(map(one_line, [COLUMNS, *kept])))
        page = read_text(f"{top}/docs/GATE.md")
        at = TABLE.search(page)
        if at:
            text = "".join(f"| {' | '.join(map(str, it))} |\n" for it in by_crates(top, crates, rows))
            write_text(f"{top}/docs/GATE.md", page[:at.start(1)] + text + page[at.end(1):])
