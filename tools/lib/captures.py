"""Captures as files: which form one has, packed or not, and its bytes unpacked. Used by runs, join, inspect and capture_records.

A packed file is known by its first bytes, whatever its name, and unpacked by the program that the system has for it.
"""
import os, subprocess

HEAD = 24  # bytes of a classic capture's header
ORDERS = {b"\xd4\xc3\xb2\xa1": "<", b"\x4d\x3c\xb2\xa1": "<", b"\xa1\xb2\xc3\xd4": ">", b"\xa1\xb2\x3c\x4d": ">"}
SECTION = b"\n\r\r\n"  # how a pcapng file begins
PACKERS = {b"\x1f\x8b": "gzip", b"\xfd7zXZ\0": "xz", b"\x28\xb5\x2f\xfd": "zstd", b"\x04\x22\x4d\x18": "lz4", b"BZh": "bzip2"}

class Fault(Exception):
    """Why a file cannot be read now; what is wrong with its bytes isn't one."""

def packer_of(head):
    return next((program for magic, program in PACKERS.items() if head.startswith(magic)), None)

def form_of_head(head):
    """What the first bytes of an unpacked file say."""
    return "classic" if head[:4] in ORDERS else "pcapng" if head[:4] == SECTION else "other"

class Opened:
    """A capture's bytes, unpacked."""
    def __init__(self, name, is_started=True):
        self.name, self.child = name, None
        try:
            self.file = open(name, "rb")
            self.packer = packer_of(self.file.peek(8)[:8])
        except OSError as why:
            raise Fault(f"cannot read {shown(name)}: {why.strerror}") from None
        if self.packer and is_started:
            self.start()

    def start(self):
        self.raw = self.file
        os.lseek(self.raw.fileno(), 0, os.SEEK_SET)
        try:
            self.child = subprocess.Popen([self.packer, "-dc"], stdin=self.raw, stdout=subprocess.PIPE, stderr=subprocess.PIPE)
        except OSError:
            raise Fault(f"{shown(self.name)} is packed, and no {self.packer} is on the path") from None
        self.file = self.child.stdout

    def from_begin(self):
        """The bytes from the first on, for another program; nothing was read here."""
        if not self.packer:
            os.lseek(self.file.fileno(), 0, os.SEEK_SET)
        return self.file

    def read(self, most):
        """The next bytes, as many as asked for unless the file ends before."""
        try:
            return self.file.read(most)
        except OSError as why:
            raise Fault(f"cannot read {shown(self.name)}: {why.strerror}") from None

    def damage(self):
        """What is wrong with packed bytes, once all were read or no more are wanted; None if nothing is."""
        if not self.child:
            return None
        is_stopped = bool(self.file.read(1))
        self.file.close()
        said = self.child.stderr.read().decode(errors="replace").split("\n")[0].strip()
        status = self.child.wait()
        if is_stopped or status == 0:
            return None
        if status < 0 or "memory" in said:
            raise Fault(f"{self.packer} of {shown(self.name)} " + (f"was ended by signal {-status}" if status < 0 else f"said: {said}"))
        read_through(self.name)  # it is the bytes' fault only where all of them can be read
        return f"can't be unpacked to its end: {said or status}"

    def close(self):
        if self.child:
            self.child.kill()
            self.child.wait()
            self.child.stdout.close()
            self.child.stderr.close()
            self.raw.close()
        else:
            self.file.close()

    def __enter__(self):
        return self

    def __exit__(self, *_):
        self.close()

def read_through(name):
    try:
        with open(name, "rb") as file:
            while file.read(1 << 20):
                pass
    except OSError as why:
        raise Fault(f"cannot read {shown(name)}: {why.strerror}") from None

def is_packed(name):
    with Opened(name, is_started=False) as file:
        return bool(file.packer)

def form_of(name):
    """The form of a file, classic, pcapng or other, and whether it is packed."""
    with Opened(name) as file:
        return form_of_head(file.read(4)), bool(file.packer)

def text_of(name):
    """The text of a name: UTF-8, and where it isn't, each byte the letter with its number."""
    data = os.fsencode(name)
    try:
        return data.decode()
    except UnicodeDecodeError:
        return data.decode("latin-1")

def shown(name):
    """A name as it is told, without letters that a terminal obeys."""
    text = text_of(name)
    return "".join(it if it.isprintable() else ascii(it)[1:-1] for it in text)
