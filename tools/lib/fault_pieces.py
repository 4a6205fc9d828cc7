"""What the pieces of a long run gave, kept in a file, so that a later run goes on where one ended. Used by faults.

The first line of the file says what ran, by its sum; each further line is a piece: its name, what it gave, and its day. A line
that was cut off, as by the end of the process, isn't there.
"""
import fcntl, hashlib, json, os, time

class Kept(Exception):
    """Why what was kept can't be gone on with."""

class OutOfTime(Exception):
    """No further piece begins."""

def sum_of(*paths):
    out = hashlib.sha256()
    for path in paths:
        with open(path, "rb") as file:
            out.update(hashlib.sha256(file.read()).digest())
    return out.hexdigest()

class Pieces:
    """`known` are the pieces so far, by their names; without a path they are kept in memory alone."""
    def __init__(self, path, mark, until=None):
        self.known, self.file, self.until = {}, None, until
        if path is not None:
            self.file = open(path, "a+b")
            try:
                self.take_over(path, mark)
            except Kept:
                self.file.close()
                raise

    def take_over(self, path, mark):
        """Reads what was kept, and cuts off a last line that isn't whole."""
        try:
            fcntl.flock(self.file, fcntl.LOCK_EX | fcntl.LOCK_NB)
        except BlockingIOError:
            raise Kept(f"another run goes on with {path}") from None
        self.file.seek(0)
        data = self.file.read()
        if not data:
            self.write({"mark": mark})
            return
        end = data.rfind(b"\n") + 1
        try:
            first, *pieces = map(json.loads, data[:end].splitlines())
            self.known = {it["name"]: it for it in pieces}
            is_same = first["mark"] == mark
        except (ValueError, TypeError, KeyError):
            raise Kept(f"{path} is no file of pieces") from None
        if not is_same:
            raise Kept(f"{path} is of another program or other cases: name another file")
        self.file.truncate(end)

    def write(self, entry):
        self.file.write(json.dumps(entry).encode() + b"\n")
        self.file.flush()
        os.fsync(self.file.fileno())

    def piece(self, name, make):
        """What a piece gave: taken over, or made now and kept. `make` gives what json has a form for."""
        if name not in self.known:
            if self.until is not None and time.monotonic() > self.until:
                raise OutOfTime
            entry = {"name": name, "gave": make(), "day": time.strftime("%Y-%m-%d", time.gmtime())}
            if self.file:
                self.write(entry)
            self.known[name] = entry
        return self.known[name]["gave"]

    def days(self):
        return sorted({it["day"] for it in self.known.values()})
