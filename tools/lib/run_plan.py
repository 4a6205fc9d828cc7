"""The plan of runs: the program, its words, and the SHA-256 of each file on which results depend. Used by runs.

Which files the configuration reads is said by rule_texts, which reads them as the detector does.
"""
import os, re, shutil, subprocess
import rule_texts
from captures import shown
from run_folder import Wrong, read, sum_of, tell

VALUED = ("-c", "-r", "-S", "-n", "-k", "-A", "--host-table", "--generate", "--seed", "--flush-point", "--lanes",
          "--read-unified2")
FLAGS = "qTU"  # letters that may come together before another one

def values_of(words):
    """The values of the detector's words, as docs/manual/command-words.md says how words are written."""
    values, rest = {}, list(words)
    while rest:
        word = rest.pop(0)
        if word.startswith("--"):
            name, is_joined, value = word.partition("=")
        else:
            letters = word[1:].lstrip(FLAGS)
            name, is_joined, value = "-" + letters[:1], letters[1:], letters[1:].removeprefix("=")
        if name in VALUED:
            values[name] = value if is_joined else rest.pop(0) if rest else ""
    return values

def files_of(words):
    """The files that a run with these words reads, beside its capture."""
    values, names, lines_of = values_of(words), [], rule_texts.joined_lines
    def noted(name, *more):
        names.append(name)
        return lines_of(name, *more)
    rule_texts.joined_lines = noted
    try:
        rule_texts.read(values["-c"], values.get("-S"))
    except OSError as why:
        raise Wrong(f"cannot read {shown(why.filename)}: {why.strerror}") from None
    finally:
        rule_texts.joined_lines = lines_of
    return sorted({os.path.abspath(it) for it in [*names, *filter(None, [values.get("--host-table")])]})

def program_of(path):
    """The file of the program: of the repository's launcher, which builds it if it has to, the program that it starts."""
    built = os.path.join(os.path.dirname(path), "crates/snort_main/out/snort_main")
    with open(path, "rb") as file:
        is_script = file.read(2) == b"#!"
    if is_script and os.access(built, os.X_OK):
        return built
    if is_script:
        tell(f"{shown(path)} is a script: the plan has its bytes, and not those of what it starts")
    return path

def check_words(program, words):
    """Refuses words with which no capture can be inspected."""
    ran = subprocess.run([program, *words, "-T", "-r=/dev/null"], stdin=subprocess.DEVNULL, capture_output=True)
    said = ran.stderr.decode(errors="replace").strip().splitlines()
    if ran.returncode or not any(it.startswith("configuration accepted") for it in said):
        why = next((it for it in said if it.startswith("ERROR")), f"status {ran.returncode}")
        raise Wrong(f"the words are refused: {why}: {' '.join(map(shown, [program, *words]))}")

def proved_commit(plan):
    """The commit that PROVED.txt names, where it is beside a package's program and has its SHA-256."""
    folder, digest = os.path.dirname(plan["program"]), plan["files"][plan["program"]]
    for name in (f"{folder}/PROVED.txt", f"{folder}/../share/snort-offline/PROVED.txt"):
        try:
            text = read(name).decode(errors="replace")
        except OSError:
            continue
        found = re.search(r"^Commit +(\S.*)$", text, re.M)
        if found and digest in text:
            return found[1]
    return None

def plan_of(program, words):
    found = shutil.which(program)
    if not found:
        raise Wrong(f"there is no program {shown(program)}")
    found = os.path.realpath(found)
    check_words(found, words)
    path = program_of(found)
    files = [path, *files_of(words)]
    return {"version": 1, "program": path, "words": words, "at": os.getcwd(), "files": {it: sum_of(it) for it in files}}

def is_same_plan(one, other):
    """Whether results of both have the same bytes: where the program is and where it is started don't count."""
    key = lambda plan: (plan["version"], plan["words"], plan["files"][plan["program"]],
                        sorted((path, digest) for path, digest in plan["files"].items() if path != plan["program"]))
    return key(one) == key(other)
