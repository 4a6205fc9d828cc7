"""A folder of runs, as tools/runs makes it: its plan, its list, and which captures have a result. Used by runs and inspect.

    plan                      the program, its words, and the SHA-256 of each file that they read
    settings                  what doesn't change a result: limits, and when the plan's files were changed
    list                      the captures, one a line; or, with tabs between them, the files of one
    runs/THOUSAND/NUMBER.*    of each capture alerts, errors, and done, one line of COLUMNS; or failed
    tries                     files of runs that haven't ended
"""
import json, os, re, stat, sys, time
from captures import shown

THOUSAND = 1000
DONE = re.compile(rb"(\d+)\.(done|failed)\Z")
COLUMNS = "number status milliseconds machine capture size changed alerts errors".split()
ROW = re.compile(rb"\d+\t(?P<status>[02])\t\d+\t[^\t\n]*\t(?P<capture>[^\t\n]+)\t(?P<size>[\d,]+)\t(?P<changed>[-\d.,]+)"
                 rb"\t(?P<alerts>\d+)\t(?P<errors>\d+)\n")
NEW = re.compile(r"\.new\.(.*)\.(\d+)\Z")  # the machine and the process that write a file

class Wrong(Exception):
    """Why a command ends here: a sentence, and the status."""
    def __init__(self, text, status=1):
        super().__init__(text)
        self.status = status

def tell(text):
    try:
        print(f"{os.path.basename(sys.argv[0])}: {text}", file=sys.stderr, flush=True)
    except OSError:
        pass  # nobody hears it

def run(main):
    """Runs a command; whatever ends it, a sentence says so."""
    try:
        status = main(sys.argv[1:])
        sys.stdout.flush()
    except Wrong as why:
        tell(why)
        status = why.status
    except BrokenPipeError:
        status = 1
    except OSError as why:
        tell(f"{shown(why.filename)}: {why.strerror}" if why.filename else f"cannot write: {why.strerror}")
        status = 1
    except KeyboardInterrupt:
        status = 130
    finish(status)

def finish(status):
    """Ends the command, also where standard output can't take what is still to be written."""
    try:
        sys.stdout.flush()
    except OSError:
        os.dup2(os.open(os.devnull, os.O_WRONLY), sys.stdout.fileno())
    sys.exit(status)

# --- Files

def read(path):
    with open(path, "rb") as file:
        return file.read()

def sync_folder(path):
    at = os.open(path, os.O_RDONLY)
    try:
        os.fsync(at)
    finally:
        os.close(at)

def new_name(path):
    """What a file is called while it is written."""
    return f"{path}.new.{os.uname().nodename}.{os.getpid()}"

def is_forsaken(name):
    """Whether a file with this name was being written by a process of this machine that is gone."""
    found = NEW.search(name)
    return bool(found) and found[1] == os.uname().nodename and not os.path.exists(f"/proc/{found[2]}")

def put(path, data):
    """A file with these bytes, in its place whole and on the disk, or not at all."""
    new = new_name(path)
    try:
        with open(new, "wb") as file:
            file.write(data)
            file.flush()
            os.fsync(file.fileno())
        os.replace(new, path)
    except OSError:
        drop(new)
        raise

def drop(*paths):
    for path in paths:
        try:
            os.unlink(path)
        except OSError:
            pass

def sum_of(path):
    import hashlib
    digest = hashlib.sha256()
    with open(path, "rb") as file:
        while block := file.read(1 << 20):
            digest.update(block)
    return digest.hexdigest()

def stamp_of(path):
    """The size and the time of change of a file."""
    found = os.stat(path)
    return [found.st_size, found.st_mtime_ns]

# --- The folder

class Folder:
    """A folder of runs: `plan` is what its results depend on, beside a capture; `settings` are the rest."""
    def __init__(self, path):
        self.path = os.path.abspath(path)
        try:
            self.plan, self.settings = json.loads(read(self.of("plan"))), json.loads(read(self.of("settings")))
        except (OSError, ValueError):
            raise Wrong(f"{shown(path)} is no folder of runs: `runs make` makes it") from None

    def of(self, name):
        return os.path.join(self.path, name)

    def place(self, number):
        """The path of a capture's files, without what tells them apart."""
        return self.of(f"runs/{number // THOUSAND}/{number}")

    def captures(self):
        """The lines of the list, each with its number."""
        with open(self.of("list"), "rb") as file:
            for number, line in enumerate(file, 1):
                yield number, line.removesuffix(b"\n")

    def captures_of(self, numbers):
        wanted, last = set(numbers), max(numbers)
        found = {}
        for number, line in self.captures():
            if number in wanted:
                found[number] = line
            if number >= last:
                break
        missing = [it for it in numbers if it not in found]
        if missing:
            raise Wrong(f"the list has no capture {missing[0]}")
        return found

    def check_plan(self):
        """Refuses files whose bytes aren't those of the plan; gives their stamps."""
        stamps = {}
        if not os.path.isdir(self.plan["at"]):
            raise Wrong(f"there is no folder {shown(self.plan['at'])}, in which `runs make` was called")
        for path, digest in self.plan["files"].items():
            try:
                stamps[path] = stamp_of(path)
                if stamps[path] != self.settings["stamps"].get(path) and sum_of(path) != digest:
                    raise Wrong(f"{shown(path)} has other bytes than the plan says: they need another folder")
            except OSError as why:
                raise Wrong(f"cannot read {shown(path)}: {why.strerror}") from None
        return stamps

# --- Results

def is_current(place, line):
    """Whether a result is of this line, and its captures are as they were for it, or gone."""
    try:
        row = ROW.fullmatch(read(f"{place}.done"))
    except FileNotFoundError:
        return False
    if not row or row["capture"] != line.replace(b"\t", b","):
        return False
    try:
        return row.group("size", "changed") == stamps_text(line)
    except OSError:
        return True

def stamps_text(line):
    """Sizes and times of change of the files of a line, as a result has them."""
    found = [os.stat(it) for it in line.split(b"\t")]
    if not all(stat.S_ISREG(it.st_mode) for it in found):
        raise OSError(0, "not a file")
    times = [f"{it.st_mtime_ns // 10**9}.{it.st_mtime_ns % 10**9:09}" for it in found]
    return ",".join(str(it.st_size) for it in found).encode(), ",".join(times).encode()

def ended(folder):
    """The numbers of the captures that have a result, and of those whose last run has none."""
    numbers = {b"done": set(), b"failed": set()}
    try:
        for part in os.listdir(folder.of("runs")):
            for name in os.listdir(os.fsencode(folder.of(f"runs/{part}"))):
                if found := DONE.match(name):
                    numbers[found[2]].add(int(found[1]))
    except OSError as why:
        raise Wrong(f"cannot read {shown(why.filename)}: {why.strerror}") from None
    return numbers[b"done"], numbers[b"failed"] - numbers[b"done"]

def left_of(folder):
    """The number and line of each capture without a result, and whether it has one of other bytes."""
    there, _ = ended(folder)
    for number, line in folder.captures():
        if number not in there:
            yield number, line, False
        elif not is_current(folder.place(number), line):
            yield number, line, True

# --- Progress

def bytes_text(count):
    for unit in ("B", "kB", "MB", "GB"):
        if count < 1000:
            break
        count, unit = count / 1000, {"B": "kB", "kB": "MB", "MB": "GB", "GB": "TB"}[unit]
    return f"{count:.3g} {unit}" if count < 1000 else f"{count:.0f} {unit}"

def time_text(seconds):
    for size, name in ((86400, "days"), (3600, "h"), (60, "min")):
        if seconds >= 2 * size:
            return f"{seconds / size:.0f} {name}"
    return f"{seconds:.0f} s"

class Progress:
    """What is done of a folder, told on standard error: a line that changes on a terminal, else one a minute."""
    def __init__(self, folder, file=sys.stderr):
        self.folder, self.file, self.is_terminal = folder, file, file.isatty()
        self.sizes = {number: size_of(line) for number, line in folder.captures()}
        self.began, self.told, self.first = time.monotonic(), time.monotonic(), None
        self.wait = 1.0

    def text(self):
        """How many captures and bytes are done, and by the rate since the beginning when the rest will be."""
        there, failed = ended(self.folder)
        done = sum(self.sizes.get(it, 0) for it in there)
        self.first = done if self.first is None else self.first
        self.is_whole = len(there) >= len(self.sizes)
        spent, all_bytes = time.monotonic() - self.began, sum(self.sizes.values())
        parts = [f"{len(there)} of {len(self.sizes)} captures, {bytes_text(done)} of {bytes_text(all_bytes)}"]
        if done > self.first and spent > 0:
            rate = (done - self.first) / spent
            parts.append(f"{bytes_text(rate)}/s")
            if all_bytes > done:
                parts.append(f"{time_text((all_bytes - done) / rate)} left")
        if failed:
            parts.append(f"{len(failed)} without a result")
        self.wait = max(1.0, 20 * (time.monotonic() - self.began - spent))
        return ", ".join(parts)

    def tell(self, is_last=False):
        text, now = self.text(), time.monotonic()
        try:
            if self.is_terminal:
                self.file.write(f"\r{text}\033[K" + "\n" * is_last)
            elif is_last or now - self.told >= 60:
                self.told = now
                self.file.write(f"{text}\n")
            self.file.flush()
        except OSError:
            pass  # nobody hears it

def size_of(line):
    """The bytes of the captures of a line that are there."""
    total = 0
    for name in line.split(b"\t"):
        try:
            total += os.stat(name).st_size
        except OSError:
            pass
    return total
