"""Tries a crate's wrong bodies by `rt must-fail`, in a tree of its own, and reads what came of each. Used by wrong_bodies."""
import os, re, shutil, signal, subprocess, time

from bodies import GATE, PARTS, below, edited, read_text

REFUSED, PROOF, LIMIT = "refused", "refused at a proof", "refused at a limit"
MISSED, BAD, NOT_TRIED = "NOT REFUSED", "BAD EDIT", "NOT TRIED"
WELL = (REFUSED, PROOF, LIMIT)
ROUNDS = 8  # entries of written proofs that are taken out for one body
TICKS = os.sysconf("SC_CLK_TCK")
SAID = re.compile(r"rt: must-fail (?P<crate>\w+)/(?P<body>\S+)\.edit: (?P<text>.*)")
# What the kit says of a refusal, and how it names a place in a written proof, and an entry of one.
REFUSAL = re.compile(r"refused, as it must be(?: \(only (?P<only>because a proof file|by a limit).*?\))?(?:: (?P<where>.*))?\Z")
OF_PROOF = re.compile(r"(?:note: )?(?:\./)?(?P<file>proofs/\S+\.antt):(?P<line>\d+):\d+:")

def link_or_copy(source, target):
    """A second name of a file of kept work, which rt replaces and never writes into; else a copy."""
    if source.endswith(".oantt") or "/out/rlib/" in source:
        try:
            return os.link(source, target)
        except OSError:
            pass
    return shutil.copy2(source, target)

def copy_kept(source, target):
    """Copies what rt kept in a folder, if it is there and nobody changes it meanwhile: what lacks rt makes anew."""
    if os.path.isdir(source):
        try:
            shutil.copytree(source, target, copy_function=link_or_copy)
        except (OSError, shutil.Error):
            shutil.rmtree(target, ignore_errors=True)

class Written:
    """A written proof, of which entries can be taken out: comments are round each such entry, and an edit makes one comment of
    the two and what is between them, so that no line moves."""
    def __init__(self, text):
        self.lines, self.marks = text.split("\n"), {}
        self.entries = []  # the name, the first and the last line of each, from 0; no name where it is none
        for at, line in enumerate(self.lines):
            if line[:1].strip() and not line.startswith(("unfolding ", "}", ")", "]")):
                name = None if line.startswith(("use ", "--", "{-")) else re.sub(r"\Apub ", "", line).split()[0]
                if not self.entries or name is None or name != self.entries[-1][0]:
                    self.entries.append([name, at, at])
            if self.entries and line.strip():
                self.entries[-1][2] = at

    def entry_at(self, number):
        """The name of the entry that has the line of this number, from 1, if it can be taken out."""
        for name, first, last in self.entries:
            if name and first <= number - 1 <= last:
                before = first - 1
                while before >= 0 and self.lines[before].startswith("--"):
                    before -= 1
                if before >= 0 and "--" not in self.lines[before] + self.lines[last]:
                    self.marks[name] = before, last
                    return name
        return None

    def text(self):
        """The proof with its comments."""
        lines = [*self.lines]
        for name, (before, last) in self.marks.items():
            lines[last] += f" {{- after {name} -}}"
            lines[before] += f" {{- before {name} -}}"
        return "\n".join(lines)

    def pairs(self, names):
        """The lines of an edit that takes these entries out, and what they alone name of the goals out of the `use` lines."""
        out = {at for name in names for at in range(self.marks[name][0] + 1, self.marks[name][1] + 1)}
        rest = [it for at, it in enumerate(self.lines) if at not in out and not it.startswith("use ")]
        named = set(re.split(r"[\s()\[\]{},.;]+", " ".join(rest)))
        found = []
        for line in self.lines:
            use = re.match(r"(use \S+\.Goals\.\{)([^{}]*)\}\Z", line)
            kept = [it for it in use[2].split(",") if it.split() and it.split()[-1] in named] if use else []
            if use and len(kept) < use[2].count(",") + 1:
                found.append((line, use[1] + ",".join(kept).strip() + "}" if kept else ""))
        for name in names:
            found += [(f"{{- before {name} -}}", "{-"), (f"{{- after {name} -}}", "-}")]
        return "".join(f"old: {old}\nnew: {new}\n" for old, new in found)

class Trial:
    """A crate at work: `rt must-fail` over some bodies, and again over those whose refusal named an entry of a written proof."""
    def __init__(self, copy, outs, room, crates, crate, bodies, anew):
        # rt reads no such line, but takes what it kept of an edit of the same bytes in place of a try
        self.mark = f"# tried at {time.time_ns()}\n" if anew else ""
        self.crate, self.bodies, self.tree = crate, {it.name: it for it in bodies}, f"{room}/{crate}"
        self.found, self.taken, self.ticks, self.works = {}, {it: [] for it in self.bodies}, {}, {}
        self.written, self.refused, self.child = {}, {}, None
        self.texts = {it.name: edited(it.text, f"{copy}/crates/{crate}")[0] for it in bodies}
        os.makedirs(f"{self.tree}/tmp")
        names = [*below(crates, crate), crate]
        with open(f"{self.tree}/crates.txt", "w", encoding="utf-8") as file:
            file.writelines(f"{crates[it][0]}\n" for it in names)
        if os.path.isfile(f"{copy}/HANDLES"):
            shutil.copy(f"{copy}/HANDLES", self.tree)
        for it in names:
            for part in PARTS:
                if os.path.isdir(f"{copy}/crates/{it}/{part}"):
                    shutil.copytree(f"{copy}/crates/{it}/{part}", f"{self.tree}/crates/{it}/{part}")
            copy_kept(f"{outs}/{it}/out/rlib", f"{self.tree}/crates/{it}/out/rlib")
        copy_kept(f"{outs}/{crate}/out/incremental", f"{self.tree}/crates/{crate}/out/incremental")

    def begin(self, lanes):
        """Has rt try those bodies that nothing is known of yet."""
        folder = f"{self.tree}/crates/{self.crate}/{GATE}"
        shutil.rmtree(folder, ignore_errors=True)
        os.mkdir(folder)
        for name in self.left():
            with open(f"{folder}/{name}.edit", "w", encoding="utf-8") as file:
                file.write(self.bodies[name].text.rstrip("\n") + "\n" + self.taking_out(name) + self.mark)
        with open(self.log(), "wb") as log:
            words = {"TMPDIR": f"{self.tree}/tmp", "RT_JOBS": str(lanes)}
            self.child = subprocess.Popen(["rt", "must-fail", self.crate], cwd=self.tree, env={**os.environ, **words},
                                          stdin=subprocess.DEVNULL, stdout=log, stderr=log, start_new_session=True)

    def taking_out(self, name):
        """The lines of an edit that take entries of written proofs out for a body."""
        files = {file: [entry for of, entry in self.taken[name] if of == file] for file, _ in self.taken[name]}
        return "".join(f"file: {file}\n{self.written[file].pairs(entries)}" for file, entries in files.items())

    def log(self):
        return f"{self.tree}/log"

    def left(self):
        return [it for it in self.bodies if it not in self.found]

    def look(self, processes):
        """Notes the processor time of processes: each is told by the body's text in the folder that it runs in."""
        for process, folder, ticks in processes:
            if folder.startswith(f"{self.tree}/tmp/"):
                if self.works.get(folder) is None:
                    self.works[folder] = self.body_in(folder)
                self.ticks[process] = self.works[folder], ticks

    def body_in(self, folder):
        for name, texts in self.texts.items():
            try:
                if texts and all(read_text(f"{folder}/{path}") == text for path, text in texts.items()):
                    return name
            except OSError:
                pass
        return None

    def seconds(self, name):
        return sum(ticks for body, ticks in self.ticks.values() if body == name) / TICKS

    def ended(self, lanes):
        """Whether all is known; where entries are to be taken out, rt begins once more."""
        if self.child.poll() is None:
            return False
        with open(self.log(), encoding="utf-8", errors="replace") as file:
            self.read(file.read())
        if self.left():
            self.begin(lanes)
        return not self.left()

    def read(self, log):
        """Takes what rt said of each body."""
        said = {it["body"]: (it["text"], after) for it, after in lines_said(log) if it["crate"] == self.crate}
        last = log.rstrip().split("\n")[-1][:160] or "nothing"
        for name in self.left():
            answer, where = answer_of(*said.get(name, (f"{NOT_TRIED}: rt did not come to it; it said: {last}", [])))
            self.taken_in(name, answer, where)

    def taken_in(self, name, answer, where):
        """Notes an answer, or that an entry of a written proof is to be taken out first."""
        if answer in (REFUSED, PROOF):
            place = OF_PROOF.match(where)
            if place and self.take_out(name, place):
                self.refused[name] = where
                return
            answer = PROOF if place else answer
        without = " and ".join(f"{entry} of {file}" for file, entry in self.taken[name])
        if without and answer in (BAD, NOT_TRIED):
            answer, where = PROOF, f"{self.refused[name]} (without {without} it was not tried: {where})"
        elif without:
            where = f"{where} (without {without})"
        self.found[name] = answer, where

    def take_out(self, name, place):
        """Has an entry of a written proof taken out where a body is tried next; tells whether that can be done."""
        file, path = place["file"], f"{self.tree}/crates/{self.crate}/{place['file']}"
        if len(self.taken[name]) >= ROUNDS or not file.endswith("/Answers.antt") or not os.path.isfile(path):
            return False
        if file not in self.written:
            self.written[file] = Written(read_text(path))
        entry = self.written[file].entry_at(int(place["line"]))
        if not entry or (file, entry) in self.taken[name]:
            return False
        self.taken[name].append((file, entry))
        with open(path, "w", encoding="utf-8") as made:
            made.write(self.written[file].text())
        return True

    def end(self):
        """Ends rt, which ends what it has begun."""
        for number in (signal.SIGTERM, signal.SIGKILL):
            if self.child and self.child.poll() is None:
                try:
                    os.killpg(self.child.pid, number)
                    self.child.wait(5)
                except (ProcessLookupError, subprocess.TimeoutExpired):
                    pass
        shutil.rmtree(self.tree, ignore_errors=True)

def lines_said(log):
    """What rt said of each body, with the lines after it that belong to it."""
    lines, found = log.split("\n"), []
    for line in lines:
        it = SAID.match(line)
        if it:
            found.append((it, []))
        elif found and not line.startswith("rt: "):
            found[-1][1].append(line)
    return found

def answer_of(text, after):
    """The answer that rt gave for a body, and the place or the reason that it gave."""
    refusal = REFUSAL.match(text)
    if refusal:
        only = refusal["only"]
        return {None: REFUSED, "by a limit": LIMIT}.get(only, PROOF), refusal["where"] or "no place is told"
    for answer in (MISSED, BAD, NOT_TRIED):
        if text.startswith(answer):
            more = next((it.strip() for it in after if "error" in it), "")
            return answer, (text[len(answer):].lstrip(": ") + (f" {more}" if more else ""))[:300]
    return NOT_TRIED, f"rt said something else: {text[:160]}"

def processes():
    """Of each process of this machine that may be read, its number and beginning, its folder, and its ticks of processor time."""
    for it in filter(str.isdigit, os.listdir("/proc")):
        try:
            folder = os.readlink(f"/proc/{it}/cwd")
            with open(f"/proc/{it}/stat", encoding="utf-8", errors="replace") as file:
                fields = file.read().rpartition(")")[2].split()
            yield (it, fields[19]), folder, int(fields[11]) + int(fields[12])
        except (OSError, IndexError):  # it has ended
            pass
