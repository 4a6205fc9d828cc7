"""A case, and runs of the program on it. Used by verify.

A case is a configuration, records, and words of the command. Its files are written into a folder of its own, and each run is
noted as a command for a shell, so that what differs can be run again.
"""
import fcntl, os, resource, shlex, signal, subprocess
from collections import namedtuple

import verify_captures as captures

SECONDS = 120
PIPE_BYTES, SET_PIPE_BYTES = 4096, 1031  # the least size of a pipe, and the number of F_SETPIPE_SZ (fcntl.h of Linux)
DONE, BAD_CAPTURE, WRITE_FAULT = 0, 2, 4

# `lines` are those of the configuration and `hosts` those of a host table (or None), each bytes without the line feed.
# `rows` is what the generator knows of the case: see verify_rows.
Case = namedtuple("Case", "lines records words hosts", defaults=((), None))
End = namedtuple("End", "status alerts errors")

class Failed(Exception):
    """The program couldn't be run, or a file couldn't be written: nothing was checked."""

def message(data, end):
    """What differs of two bytes objects, in a line: the place of the first difference, and both from there on."""
    at = next((at for at, pair in enumerate(zip(data, end)) if pair[0] != pair[1]), min(len(data), len(end)))
    at = data.rfind(b"\n", 0, at) + 1
    return f"from byte {at} on: {data[at:at + 160]!r}, not {end[at:at + 160]!r}"

def difference(end, wanted):
    """What differs of two ends of runs, or None."""
    for name in End._fields:
        have, want = getattr(end, name), getattr(wanted, name)
        if have != want:
            return f"{name} {have}, not {want}" if name == "status" else f"{name} {message(have, want)}"

class Bench:
    """Runs of the program in a folder, whose files are written once for each content."""
    def __init__(self, program, folder):
        self.program, self.folder, self.written = program, folder, {}
        self.clear()

    def clear(self):
        """Forgets the case that was here, and removes its files."""
        for name in self.written:
            os.remove(f"{self.folder}/{name}")
        self.commands, self.known, self.first_commands, self.written = [], {}, [], {}

    def write(self, name, data):
        if self.written.get(name) != data:
            try:
                with open(f"{self.folder}/{name}", "wb") as file:
                    file.write(data)
            except OSError as fault:
                raise Failed(f"cannot write {self.folder}/{name}: {fault.strerror}") from None
            self.written[name] = data
        return name

    def note(self, text):
        self.commands.append(text)

    def started(self, words, **streams):
        try:
            return subprocess.Popen([self.program, *words], cwd=self.folder, close_fds=True, **streams)
        except OSError as fault:
            raise Failed(f"cannot run {self.program}: {fault.strerror}") from None

    def run(self, words, given=None):
        """The end of a run; `given` is its standard input."""
        self.note(f"$SNORT {shlex.join(words)}" + (" < capture" if given is not None else ""))
        child = self.started(words, stdin=subprocess.PIPE if given is not None else subprocess.DEVNULL,
                             stdout=subprocess.PIPE, stderr=subprocess.PIPE)
        try:
            alerts, errors = child.communicate(given, timeout=SECONDS)
        except subprocess.TimeoutExpired:
            child.kill()
            alerts, errors = child.communicate()
            return End(f"none within {SECONDS} seconds", alerts, errors)
        return End(child.returncode, alerts, errors)

    # --- Runs whose standard output is a file of the caller's

    def ended(self, words, output, setting=None):
        """The status and the messages of a run that writes to an open descriptor, which is closed here then."""
        with open(f"{self.folder}/messages", "w+b") as errors:
            child = self.started(words, stdin=subprocess.DEVNULL, stdout=output, stderr=errors, preexec_fn=setting)
            yield child
            try:
                child.wait(SECONDS)
            except subprocess.TimeoutExpired:
                child.kill()
                child.wait()
            errors.seek(0)
            yield child.returncode, errors.read()

    def to_device(self, words, name="/dev/full"):
        self.note(f"$SNORT {shlex.join(words)} > {name}")
        with open(name, "wb") as device:
            _, (status, errors) = self.ended(words, device)
        return End(status, b"", errors)

    def to_small_file(self, words, most):
        """A run whose standard output is a file that takes that many bytes."""
        self.note(f"# $SNORT {shlex.join(words)}, whose standard output is a file with room for {most} bytes (RLIMIT_FSIZE)")
        def limit():  # messages go to a file, too, but have room below
            signal.signal(signal.SIGXFSZ, signal.SIG_IGN)
            resource.setrlimit(resource.RLIMIT_FSIZE, (most, most))
        with open(f"{self.folder}/lines", "w+b") as lines:
            reader, writer = os.pipe()
            with os.fdopen(reader, "rb") as told:
                child = self.started(words, stdin=subprocess.DEVNULL, stdout=lines, stderr=writer, preexec_fn=limit)
                os.close(writer)
                errors = told.read()
            status = child.wait()
            lines.seek(0)
            return End(status, lines.read(), errors)

    def to_reader(self, words, most):
        """A run whose reader takes that many bytes and goes away."""
        self.note(f"$SNORT {shlex.join(words)} | head -c {most}  # standard output is a pipe of {PIPE_BYTES} bytes")
        reader, writer = small_pipe()
        steps = self.ended(words, writer)
        next(steps)
        os.close(writer)
        taken = b""
        while len(taken) < most and (more := os.read(reader, most - len(taken))):
            taken += more
        os.close(reader)
        status, errors = next(steps)
        return End(status, taken, errors)

    def to_full_pipe(self, words):
        """A run whose standard output is a pipe that nobody reads, and that doesn't block."""
        self.note(f"# $SNORT {shlex.join(words)}, whose standard output is a non-blocking pipe of {PIPE_BYTES} bytes, not read")
        reader, writer = small_pipe()
        os.set_blocking(writer, False)
        steps = self.ended(words, writer)
        next(steps)
        os.close(writer)
        status, errors = next(steps)
        with os.fdopen(reader, "rb") as file:
            return End(status, file.read(), errors)

    # --- The case's own files and runs

    def conf(self, case, name="conf", lines=None):
        """The words that name the configuration, written under a name; its lines are the case's, where none are given."""
        self.write(name, b"".join(it + b"\n" for it in (case.lines if lines is None else lines)))
        words = ["-c", name, *case.words]
        if case.hosts is not None:
            words += ["--host-table", self.write("hosts", b"".join(it + b"\n" for it in case.hosts))]
        return words

    def capture(self, case, name="capture", records=None):
        """The words that name a classic capture of the records."""
        records = case.records if records is None else records
        return ["-r", self.write(name, captures.pcap(records, is_nano=is_nano(case)))]

    def base(self, case):
        """The end of the case in one lane, with counts."""
        return self.once("base", case, "--stats")

    def lines(self, case):
        """The same without counts."""
        return self.once("lines", case)

    def once(self, name, case, *more):
        """The end of a run that several checks ask for: it is made once."""
        if name not in self.known:
            self.known[name] = self.run([*self.conf(case), *self.capture(case), *more])
            self.first_commands.append(self.commands.pop())
        return self.known[name]

def is_nano(case):
    """Whether a capture needs nanoseconds to hold the moments of a case."""
    return any(it.moment % 1000 for it in case.records)

def small_pipe():
    reader, writer = os.pipe()
    fcntl.fcntl(writer, SET_PIPE_BYTES, PIPE_BYTES)
    return reader, writer
