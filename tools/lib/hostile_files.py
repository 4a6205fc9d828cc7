"""Files that are made to be slow, and plain ones beside them: captures of blocks without a packet, and rule files. Used by hostile.

A row is what it is, the words of the run, and two functions that give files by their names, each as parts of bytes.
"""
import struct

MOST_BYTES = 16777216  # of a configuration file
MOST_FACES, MOST_RULES = 4096, 65536  # interfaces of a section; rules
SECTION = struct.pack("<IIIHHqI", 0x0A0D0D0A, 28, 0x1A2B3C4D, 1, 0, -1, 28)
FACE = struct.pack("<IIHHII", 1, 20, 1, 0, 0, 20)
CAPTURE = ["-q", "-c", "conf", "-r", "capture"]
TEST = ["-q", "-T", "-c", "conf"]
RULE = b'alert ip any any -> any any (content:"zq zq zq"; sid:1;)\n'

def packet_block(data):
    size = 32 + len(data) + -len(data) % 4
    return struct.pack("<7I", 6, size, 0, 0, 0, len(data), len(data)) + data + bytes(-len(data) % 4) + struct.pack("<I", size)

def capture(*parts):
    return {"conf": [RULE], "capture": parts}

def plain_capture():
    """Some 20 MB of records that hold no packet of IP, of 1,400 bytes each."""
    return capture(SECTION, FACE, packet_block(b"\2" * 12 + b"\x88\xb5" + b"text " * 277) * 14000)

def sections():
    return capture((SECTION + FACE) + SECTION * 1000000)

def faces():
    """A million interfaces: as many sections as are needed, each with as many interfaces as it may have."""
    return capture((SECTION + FACE * MOST_FACES) * (1000000 // MOST_FACES + 1))

def rule(number, size):
    front = b'alert udp any any -> any %d (content:"evil %08d"; sid:%d; msg:"' % (number % 65536, number, number)
    return front + b"m" * (size - len(front) - 4) + b'";)\n'

def nested(lines, count):
    """Some lines cut into that many files, each of which includes the next one."""
    share, out = -(-len(lines) // count), {}
    for at in range(count):
        name = "conf" if at == 0 else f"part{at}"
        out[name] = [*lines[at * share:(at + 1) * share], *([b"include part%d\n" % (at + 1)] if at + 1 < count else [])]
    return out

def large_rules():
    """65,536 rules in 64 MB, in four files that include each other."""
    return nested([rule(number, 1018) for number in range(1, MOST_RULES + 1)], 4)

def usual_rules():
    return {"conf": [rule(number, 200) for number in range(1, 2001)]}

def comments():
    return nested([b"# " + b"c" * 997 + b"\n"] * 64000, 16)

def backslashes():
    """A line of 16 MB that is joined of lines of a backslash each."""
    return {"conf": [b"#", b"\\\n" * (MOST_BYTES // 2 - 4), b"\n"]}

def includes():
    """As many readings of files as there may be."""
    return {"conf": [b"include part\n"] * 4095, "part": [b"# nothing\n"]}

def lists():
    """Variables with lists of nearly as many parts as there may be."""
    parts = b",".join(b"[10.%d.%d.0/24]" % (it // 256, it % 256) for it in range(1000))
    return {"conf": [b"ipvar A%d [%s]\n" % (at, parts) for at in range(500)]}

ROWS = [
    ("a pcapng file of a million empty sections", CAPTURE, sections, plain_capture),
    ("one of a million interfaces", CAPTURE, faces, plain_capture),
    ("65,536 rules in 64 MB, in files that include each other", TEST, large_rules, usual_rules),
    ("64 MB of comments, sixteen includes deep", TEST, comments, usual_rules),
    ("16 MB of backslashes at the ends of lines", TEST, backslashes, usual_rules),
    ("4,095 includes of a file", TEST, includes, usual_rules),
    ("500 lists of 1,000 networks", TEST, lists, usual_rules),
]
