"""Packets written as text, and the classic pcap capture that they make. Used by make_capture and try_rule.

A packet is a kind, its two ends, fields and a payload; all but the kind may be left out:

    udp  10.0.0.1:1000 > 10.0.0.2:2000   "login"
    tcp  10.0.0.1:1000 > 10.0.0.2:80     flags=PA seq=1 ack=101 "GET /|0d 0a|"
    icmp 10.0.0.1 > 10.0.0.2             type=8 code=0 "a"*64
    ip   10.0.0.1 > 10.0.0.2             protocol=17 id=7 offset=8 more "second part"
    udp  [2001:db8::1]:1000 > [2001:db8::2]:53  ttl=3 "over IPv6"

A payload is quoted text with pairs of hex digits between bars, as in a rule's content; `*n` after it repeats it, and
several of them come one after another. Fields of all kinds: ttl, tos, id, df, reserved, more, offset (in bytes, of a
fragment), protocol (of `ip`), badsum (a wrong checksum). Of `tcp`: flags (letters FSRPAUEC), seq, ack, window. Of `icmp`:
type, code, icmp_id, icmp_seq. `->` between the ends is the same as `>`.
"""
import ipaddress, re, struct

FLAGS = "FSRPAUEC"
PROTOCOLS = {"udp": 17, "tcp": 6, "icmp": 1, "ip": 253}
NUMBERS = {"ttl": 64, "tos": 0, "id": 1, "offset": 0, "protocol": None, "seq": 0, "ack": 0, "window": 65535,
           "type": 8, "code": 0, "icmp_id": 0, "icmp_seq": 0}
MOST = {"ttl": 255, "tos": 255, "id": 2**32 - 1, "offset": 65528, "protocol": 255, "seq": 2**32 - 1, "ack": 2**32 - 1,
        "window": 65535, "type": 255, "code": 255, "icmp_id": 65535, "icmp_seq": 65535}
MARKS = ("df", "reserved", "more", "badsum")
HEADS = {"udp": 8, "tcp": 20, "icmp": 8, "ip": 0}  # bytes of the header after that of IP
LONGEST = 65535  # bytes after the IP header of version 6, and with it in version 4
END = re.compile(r"(?:\[([0-9a-fA-F:.]+)\]|([0-9.]+))(?::(\d+))?\Z")
PART = re.compile(r'"((?:[^"\\]|\\.)*)"(?:\*(\d+))?|(\S+)')

class Wrong(Exception):
    """A text that is no packet."""

def payload(text):
    """The bytes of a text with pairs of hex digits between bars; a backslash takes the next letter as it is."""
    out, at = bytearray(), 0
    while at < len(text):
        if text[at] == "|":
            end = text.find("|", at + 1)
            if end < 0:
                raise Wrong(f"no closing bar: {text[at:]}")
            try:
                out += bytes.fromhex(text[at + 1:end])
            except ValueError:
                raise Wrong(f"no hex digits: {text[at:end + 1]}") from None
            at = end + 1
            continue
        at += text[at] == "\\" and at + 1 < len(text)
        out += text[at].encode("utf-8", "surrogateescape")
        at += 1
    return bytes(out)

def end_of(word):
    if not (found := END.match(word)):
        raise Wrong(f"no address: {word}")
    if len(found[3] or "") > 5 or int(found[3] or 0) > 65535:
        raise Wrong(f"no port: {word}")
    try:
        return ipaddress.ip_address(found[1] or found[2]), int(found[3] or 0)
    except ValueError:
        raise Wrong(f"no address: {word}") from None

def checksum(data):  # RFC 1071: a sum in ones' complement is a remainder by 65535, and 0 only if all is 0
    return -int.from_bytes(data + b"\0" * (len(data) % 2), "big") % 65535 if any(data) else 65535

def summed(source, target, protocol, body, at, is_wrong):
    """The body with its checksum at a place, over the pseudo header where the protocol has one."""
    pseudo = b"" if protocol == 1 else source.packed + target.packed + struct.pack(">HH", protocol, len(body))
    total = checksum(pseudo + body) or (65535 if protocol == 17 else 0)
    return body[:at] + struct.pack(">H", total ^ (1 if is_wrong else 0)) + body[at + 2:]

def transport(kind, source, target, given, data):
    numbers, is_wrong = {**NUMBERS, **given}, "badsum" in given
    (here, sport), (there, dport) = source, target
    is_v6 = here.version == 6
    if kind == "ip" or "offset" in given or "more" in given:
        return data
    if kind == "udp":
        return summed(here, there, 17, struct.pack(">HHHH", sport, dport, 8 + len(data), 0) + data, 6, is_wrong)
    if kind == "tcp":
        head = struct.pack(">HHIIBBHHH", sport, dport, numbers["seq"] % 2**32, numbers["ack"] % 2**32, 80,
                           given.get("flags", 16), numbers["window"], 0, 0)
        return summed(here, there, 6, head + data, 16, is_wrong)
    head = struct.pack(">BBHHH", numbers["type"], numbers["code"], 0, numbers["icmp_id"], numbers["icmp_seq"])
    return summed(here, there, 58 if is_v6 else 1, head + data, 2, is_wrong)

def datagram(kind, source, target, given, data):
    """The bytes of the packet from its IP header on."""
    numbers, (here, _), (there, _) = {**NUMBERS, **given}, source, target
    protocol = numbers["protocol"] if numbers["protocol"] is not None else PROTOCOLS[kind]
    if kind == "icmp" and here.version == 6:
        protocol = 58
    is_fragment = "more" in given or "offset" in given
    most = LONGEST - (0 if is_fragment else HEADS[kind]) - (8 * is_fragment if here.version == 6 else 20)
    if len(data) > most:
        raise Wrong(f"a payload of {len(data)} bytes: {kind} over IPv{here.version} has at most {most}")
    body = transport(kind, source, target, given, data)
    fragment = ("more" in given) << 13 | numbers["offset"] // 8
    if here.version == 6:
        if is_fragment:
            part = (numbers["offset"] // 8) << 3 | ("more" in given)
            body, protocol = struct.pack(">BBHI", protocol, 0, part, numbers["id"]) + body, 44
        head = struct.pack(">IHBB", 6 << 28 | numbers["tos"] << 20, len(body), protocol, numbers["ttl"])
        return head + here.packed + there.packed + body
    fragment |= ("df" in given) << 14 | ("reserved" in given) << 15
    head = struct.pack(">BBHHHBBH", 69, numbers["tos"], 20 + len(body), numbers["id"], fragment, numbers["ttl"], protocol, 0)
    head += here.packed + there.packed
    total = checksum(head) ^ (1 if "badsum" in given and kind == "ip" else 0)
    return head[:10] + struct.pack(">H", total) + head[12:] + body

def frame(kind, source, target, given, data):
    """The packet over Ethernet."""
    return (bytes.fromhex("020000000002" "020000000001") + (b"\x86\xdd" if source[0].version == 6 else b"\x08\0")
            + datagram(kind, source, target, given, data))

def field(word):
    name, equals, value = word.partition("=")
    if name == "flags" and equals and all(letter in FLAGS for letter in value):
        return name, sum(1 << FLAGS.index(letter) for letter in set(value))
    if name in NUMBERS and value.isascii() and value.isdecimal():
        if len(value) > 10 or int(value) > MOST[name]:
            raise Wrong(f"a number of more than {MOST[name]}: {word}")
        if name == "offset" and int(value) % 8:
            raise Wrong(f"an offset that is no multiple of 8: {word}")
        return name, int(value)
    if name in MARKS and not equals:
        return name, True
    raise Wrong(f"no field of a packet: {word}")

def repeated(text, times):
    data = payload(text)
    if times and (len(times) > 9 or len(data) * int(times) > LONGEST):
        raise Wrong(f"a payload of more than {LONGEST} bytes: \"{text}\"*{times}")
    return data * int(times or 1)

def packet(text, data=b""):
    """The frame of a packet's text, and of a payload after the one that is written in it."""
    source, target = "10.0.0.1:1000", "10.0.0.2:2000"
    kind, rest = [*text.split(None, 1), "", ""][:2]
    if kind not in PROTOCOLS:
        raise Wrong(f"no kind of packet: {kind}")
    words, written, given = [], b"", {}
    for found in PART.finditer(rest):
        if found[3] is None:
            written += repeated(found[1], found[2])
        else:
            words.append(found[3])
    data = written + data
    if len(words) >= 3 and words[1] in (">", "->"):
        source, target, words = words[0], words[2], words[3:]
    for word in words:
        name, value = field(word)
        given[name] = value
    source, target = end_of(source), end_of(target)
    if source[0].version != target[0].version:
        raise Wrong("two addresses of different versions")
    if source[0].version == 4 and given.get("id", 0) > 65535:
        raise Wrong(f"a number of more than 65535: id={given['id']}")
    try:
        return frame(kind, source, target, given, data)
    except struct.error as fault:
        raise Wrong(f"a number is too large: {fault}") from None

def capture(records):
    """A classic pcap file (Ethernet, microseconds) of pairs of a moment in microseconds and a frame."""
    out = [struct.pack("<IHHIIII", 0xA1B2C3D4, 2, 4, 0, 0, 262144, 1)]
    for moment, bytes_ in records:
        out.append(struct.pack("<IIII", moment // 10**6, moment % 10**6, len(bytes_), len(bytes_)) + bytes_)
    return b"".join(out)
