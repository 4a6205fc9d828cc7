"""Unified2 records, and alert lines, made JSON lines by the program snort_eve. Used by eve.

It reads a file through a pipe, so that any name, what is read already, and what can't be opened twice are all the same to it.
Where it ends at a line, what it was given from there on is still here.
"""
import collections, io, re, select, subprocess, sys

import alerts

PIECE = 65536  # bytes that are read at once
# More bytes than a pipe holds, the program reads at once and a line has that it takes.
WINDOW = 1 << 22
BAD = re.compile(rb"ERROR: (?:unified2 file /dev/stdin is bad at byte |/dev/stdin\()(\d+)(?:\) no alert line)?\n")
DATE = re.compile(rb"(\d\d)/(\d\d)-")
YEARS = range(1970, 2554)  # that the program takes
DONE, CUT, UNWRITTEN = 0, 2, 4  # its statuses

def feed(file, pipe):
    """Gives all of a file to a pipe, each piece at once; it ends where nobody reads the pipe any more."""
    try:
        while piece := memoryview(file.read1(PIECE)):
            while piece:
                piece = piece[pipe.write(piece):]
    except BrokenPipeError:
        pass
    pipe.close()

def flush():
    """Writes what this process has still to write."""
    try:
        sys.stdout.flush()
    except BrokenPipeError:
        sys.exit(1)
    except OSError as fault:
        sys.exit(f"cannot write: {fault.strerror}")

def is_reader_gone():
    poll = select.poll()
    poll.register(sys.stdout.fileno(), 0)
    return any(event & (select.POLLERR | select.POLLHUP) for _, event in poll.poll(0))

# Whole lines, how many are ahead of them, and the date of the last one of these.
Block = collections.namedtuple("Block", "lines count before")

class Lines:
    """The lines of a file for the program, which is given whole lines as they come.

    `years` has the dates of those that it was given. `year` is that of the first line, None where that is no alert of such a
    year, and all is left to others. What the program may not have read is kept.
    """
    def __init__(self, file, years):
        self.file, self.years, self.rest, self.count = file, years, b"", 0
        self.kept, self.size = collections.deque(), 0
        self.first = self.read_lines()
        self.keep(self.first)
        self.year = self.first_year(self.first.partition(b"\n")[0])

    def first_year(self, line):
        try:
            alerts.alert_of_line(line, self.years)
        except alerts.Wrong:
            return None
        year = self.years.before.year
        self.years.asked, self.years.before, self.years.date = year, None, None
        return year if year in YEARS else None

    def read_lines(self):
        """Further whole lines; the bytes after the last line feed at the end, and then none."""
        while piece := self.file.read1(PIECE):
            lines, feed, rest = piece.rpartition(b"\n")
            lines, self.rest = self.rest + lines + feed if feed else b"", rest if feed else self.rest + rest
            if lines:
                return lines
        lines, self.rest = self.rest, b""
        return lines

    def keep(self, lines):
        self.kept.append(Block(lines, self.count, self.years.before))
        self.count += lines.count(b"\n")
        self.size += len(lines)
        while self.size - len(self.kept[0].lines) > WINDOW:
            self.size -= len(self.kept.popleft().lines)

    def pass_dates(self, lines):
        """Lets the dates of lines pass. Most blocks have that of the line before alone, which is counted fast."""
        last = self.years.before and b"%02d/%02d-" % (self.years.before.month, self.years.before.day)
        if last and lines.startswith(last) and lines.count(b"\n" + last) + 1 == lines.count(b"\n"):
            return
        for line in lines.split(b"\n"):
            if (found := DATE.match(line)) and found[0] != last:
                last = found[0]
                try:
                    self.years.midnight_of(int(found[1]), int(found[2]), None)
                except alerts.Wrong:
                    return  # the program ends there, too

    def read1(self, _):
        """What the program is given next."""
        if self.first is not None:
            lines, self.first = self.first, None
        else:
            lines = self.read_lines()
            self.keep(lines)
        self.pass_dates(lines)
        return lines

    def left(self, number):
        """The lines from this number on, once those ahead of it were alerts; `years` is as it is after these."""
        while len(self.kept) > 1 and self.kept[1].count < number:
            self.kept.popleft()
        lines = self.kept[0].lines.split(b"\n")
        ahead = number - 1 - self.kept[0].count
        self.years.before = self.kept[0].before
        self.pass_dates(b"\n".join(lines[:ahead] + [b""]))
        self.years.date = self.years.text = None
        kept = b"".join([b"\n".join(lines[ahead:]), *(it.lines for it in list(self.kept)[1:]), self.rest])
        return io.BufferedReader(Joined(kept, self.file))

class Joined(io.RawIOBase):
    """Bytes, and then what is left of a file."""
    def __init__(self, data, file):
        self.data, self.file = memoryview(data), file

    def readable(self):
        return True

    def readinto(self, room):
        data = self.data[:len(room)] if self.data else self.file.read1(len(room))
        self.data = self.data[len(room):]
        room[:len(data)] = data
        return len(data)

class Program:
    """The program at a path, with the seed of community IDs, and the texts that all records have, by their keys."""
    def __init__(self, path, seed, more):
        options = {"community-id-seed": str(seed), **{key.replace("_", "-"): text for key, text in more.items()}}
        self.words = [path, *(f"--{name}={text}".encode() for name, text in options.items())]

    def ran(self, file, more):
        """The status and the message of a run over a file, with more words."""
        try:
            # Signals of a full file, and of a reader that went away, stay ignored, so that it says what it met.
            child = subprocess.Popen([*self.words, *more], stdin=subprocess.PIPE, stdout=sys.stdout.fileno(), stderr=subprocess.PIPE,
                                     bufsize=0, restore_signals=False)
        except OSError as fault:
            sys.exit(f"cannot run {self.words[0]}: {fault.strerror}")
        with child:
            try:
                feed(file, child.stdin)
            except BaseException:  # of a file that can't be read the last record isn't known to be whole
                child.kill()
                raise
            told = child.stderr.read()
        return child.returncode, told

    def copy(self, file, *more):
        """Writes the records of a file; gives the byte or the line at which none begins, or None where all of it is records."""
        flush()
        status, told = self.ran(file, more)
        bad = BAD.fullmatch(told)
        if status == CUT and bad:
            return int(bad[1])
        if status == UNWRITTEN:
            sys.exit(1 if is_reader_gone() else "cannot write")
        if status != DONE:
            sys.exit(f"{self.words[0]} ended with status {status}: {told.decode(errors='replace').strip()}")
        return None
