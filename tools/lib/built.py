"""Programs that this checkout builds: their crates, where they are, and whether a source is newer. Used by build, package."""
import os

TOP = os.path.dirname(os.path.dirname(os.path.dirname(os.path.realpath(__file__))))
CRATES = f"{TOP}/crates.txt"

def crate_lines():
    """Of each crate its line of crates.txt, and what it uses itself, crates and libraries of the kit."""
    lines = {}
    with open(CRATES, encoding="utf-8") as file:
        for line in file:
            name, colon, used = line.split("#")[0].partition(":")
            if colon:
                lines[name.strip()] = line, used.split()
    return lines

def crates_of(programs):
    """The crates of programs, lowest first: each with what it uses itself."""
    lines, found = crate_lines(), [*programs]
    for name in found:
        found += [it for it in lines[name][1] if it in lines and it not in found]
    return {name: used for name, (_, used) in lines.items() if name in found}

def path_of(program):
    """Where a program is once it is built."""
    return f"{TOP}/crates/{program}/out/{program}"

def sources_of(program):
    """The files that a program is made of. Those of proofs change nothing of it."""
    yield CRATES
    for name in crates_of([program]):
        for kind in ("src", "specs"):
            for folder, _, files in os.walk(f"{TOP}/crates/{name}/{kind}"):
                yield from (f"{folder}/{it}" for it in [".", *files])

def newer_source(program):
    """A source that is newer than the program that is built of it; None where there is none."""
    built = os.stat(path_of(program)).st_mtime_ns
    return next((os.path.normpath(it) for it in sources_of(program) if os.stat(it).st_mtime_ns > built), None)

def is_current(program):
    """Whether a program is built, of the sources as they are."""
    return os.access(path_of(program), os.X_OK) and not newer_source(program)
