"""Unified2 events and alert lines of random bytes, with the fields that their JSON lines must have. For test_eve, eve_speed.

What a line must have comes from the values that an event is made of, by docs/manual/snort_eve.md and field.md, and nothing of
it from a program; the identifiers of flows are those of flow_ids.py, which is tested by the values of their specification.
"""
import struct
from base64 import b64encode
from collections import namedtuple
from datetime import datetime, timedelta

import alerts, flow_ids

# The bytes of a packet, what the program reads as its payload, None where it reads no packet, and whether it is a fragment.
Packet = namedtuple("Packet", "link data payload is_fragment")
EPOCH = datetime(1970, 1, 1)
ETHERNET, RAW, COOKED = 1, 101, 113
TCP, UDP, ICMP, ICMP6 = 6, 17, 1, 58
USUAL = TCP, TCP, UDP, UDP, ICMP, ICMP6, 132, 47, 253
WITH_LENGTH, PART = (0, 43, 60), 44  # extension headers of version 6

def word(random, bits=32):
    """A number that is often 0, 1 or the largest one."""
    return random.choice((0, 1, 2**bits - 1, *[random.getrandbits(bits)] * 5))

def payload_of(random):
    return random.randbytes(random.choice((0, 1, random.randrange(64), random.randrange(64), random.randrange(1400))))

# --- Packets

def after_ip(random, protocol, own_icmp):
    """The bytes after the IP headers, and their payload."""
    payload = payload_of(random)
    if protocol == TCP:
        options = random.randbytes(4 * random.randrange(11))
        offset = (20 + len(options)) // 4 << 4 | random.randrange(16)
        return random.randbytes(12) + bytes([offset]) + random.randbytes(7) + options + payload, payload
    if protocol == UDP:
        after = random.randbytes(random.choice((0, 0, 3)))
        return random.randbytes(4) + struct.pack(">H", 8 + len(payload)) + random.randbytes(2) + payload + after, payload
    if protocol == own_icmp:
        return random.randbytes(8) + payload, payload
    return payload, payload

def fragmentation(random):
    """The bit of more fragments and an offset, one of which isn't 0."""
    return random.choice(((1, 0), (0, random.randrange(1, 8192)), (1, random.randrange(1, 8192))))

def version_4(random, protocol, is_fragment):
    body, payload = after_ip(random, protocol, ICMP)
    if is_fragment:
        payload = body
    options = random.randbytes(4 * random.choice((0, 0, 0, random.randrange(11))))
    more, offset = fragmentation(random) if is_fragment else (0, 0)
    head = bytes([64 + 5 + len(options) // 4]) + random.randbytes(1) + struct.pack(">H", 20 + len(options) + len(body))
    part = struct.pack(">H", random.getrandbits(2) << 14 | more << 13 | offset)
    head += random.randbytes(2) + part + random.randbytes(1) + bytes([protocol]) + random.randbytes(10)
    return head + options + body, payload

def version_6(random, protocol, is_fragment):
    body, payload = after_ip(random, protocol, ICMP6)
    if is_fragment:
        payload = body
        more, offset = fragmentation(random)
        body = bytes([protocol]) + random.randbytes(1) + struct.pack(">H", offset << 3 | more) + random.randbytes(4) + body
        protocol = PART
    for _ in range(random.choice((0, 0, 0, random.randrange(8)))):
        units = random.choice((0, 0, 1, 4))
        body, protocol = bytes([protocol, units]) + random.randbytes(6 + 8 * units) + body, random.choice(WITH_LENGTH)
    head = bytes([96 + random.randrange(16)]) + random.randbytes(3) + struct.pack(">HB", len(body), protocol)
    return head + random.randbytes(33) + body, payload

def framed(random, link, data):
    """A packet after its link header, with bytes after it that belong to none."""
    kind = b"\x08\0" if data[0] >> 4 == 4 else b"\x86\xdd"
    tags = b"".join(b"\x81\0" + random.randbytes(2) for _ in range(random.choice((0, 0, 1, 2))))
    front = {ETHERNET: random.randbytes(12) + tags + kind, COOKED: random.randbytes(14) + tags + kind, RAW: b""}[link]
    return front + data + random.randbytes(random.choice((0, 0, 7)))

def is_extension(protocol):
    return protocol in (*WITH_LENGTH, PART)

def whole_packet(random):
    protocol, is_fragment = random.choice((*USUAL, random.randrange(256))), random.random() < 0.1
    version = random.choice((version_4, version_4, version_6))
    if version is version_6 and is_extension(protocol):
        protocol = UDP
    data, payload = version(random, protocol, is_fragment)
    link = random.choice((ETHERNET, ETHERNET, COOKED, RAW))
    return Packet(link, framed(random, link, data), payload, is_fragment)

def cut_packet(random):
    """One of which the capture has the first bytes alone."""
    data, _ = random.choice((version_4, version_6))(random, random.choice(USUAL), False)
    return Packet(RAW, data[:random.randrange(len(data))], None, False)

def no_packet(random):
    """Random bytes, in which no packet is read."""
    link, data = random.choice((ETHERNET, RAW, word(random))), random.randbytes(random.randrange(100))
    if link in (ETHERNET, COOKED):
        data = data[:12] + b"\x08\x06" + data[14:16] + data[14:]
    elif link == RAW:
        data = bytes([random.choice((0, 0x3F, 0x50, 0x70, 0xFF))]) + data
    return Packet(link, data, None, False)

def packet_of(random):
    make = random.choice((whole_packet, whole_packet, whole_packet, whole_packet, cut_packet, no_packet))
    return make(random)

# --- Events

def address_4(random):
    data = random.randbytes(4)
    return data, ".".join(map(str, data))

def address_6(random):
    """Groups that aren't 0, among them a run of zeros; two or more of these are written as two colons (RFC 5952)."""
    zeros = random.choice((0, 0, 1, 2, 3, random.randrange(9)))
    ahead = random.randrange(9 - zeros)
    groups = [random.choice((1, 0x10, 0xFFFF, random.randrange(1, 65536))) for _ in range(8 - zeros)]
    front, back = groups[:ahead], groups[ahead:]
    texts = [":".join(f"{it:x}" for it in part) for part in (front, back)]
    data = struct.pack(">8H", *front, *[0] * zeros, *back)
    return data, "::".join(texts) if zeros > 1 else ":".join(f"{it:x}" for it in (*front, *[0] * zeros, *back))

def record_of(kind, body):
    return struct.pack(">II", kind, len(body)) + body

def packet_record(mark, packet, random):
    """The record of a packet of the event with this sensor, number and second."""
    body = struct.pack(">3I", *mark) + random.randbytes(8) + struct.pack(">II", packet.link, len(packet.data))
    return record_of(2, body + packet.data)

def another(mark, random):
    """The sensor, number and second of another event, which differs in one of them."""
    at = random.randrange(3)
    return tuple(it ^ (place == at) << random.randrange(32) for place, it in enumerate(mark))

def records_after(random, mark):
    """What follows an event, and the packet of it that is its own, or None."""
    after, own = [], None
    while random.random() < 0.2:
        after.append(record_of(random.choice((0, 3, 104, 110, 2**32 - 1)), random.randbytes(random.randrange(40))))
    if random.random() < 0.1:
        after.append(packet_record(another(mark, random), packet_of(random), random))
    if random.random() < 0.8:
        own = packet_of(random)
        after.append(packet_record(mark, own, random))
        if random.random() < 0.1:
            after.append(packet_record(mark, packet_of(random), random))
    return after, own

def rule_fields(is_blocked, gid, sid, rev, place, priority):
    return {"action": "blocked" if is_blocked else "allowed", "gid": gid, "signature_id": sid, "rev": rev, "signature": "",
            "category": "", "severity": priority or (0 if place else 3)}

def packet_fields(packet):
    """The fields of a packet; base64 is RFC 4648's."""
    fields = {}
    if packet.payload is not None:
        fields["payload_printable"] = "".join(chr(it) if 32 <= it < 127 or it in b"\r\n" else "." for it in packet.payload)
    return {**fields, "packet": b64encode(packet.data).decode(), "packet_info": {"linktype": packet.link}}

def flow_fields(protocol, ends, pair, seed):
    """The fields of a flow, and the identifier of it that comes after them."""
    has_ports, has_icmp = pair and protocol in (TCP, UDP), pair and protocol in (ICMP, ICMP6)
    sport, dport = pair if has_ports else (None, None)
    number, community = flow_ids.ids_of(protocol, ends[0], sport, ends[1], dport, pair if has_icmp else None, seed)
    fields = {"flow_id": number, "event_type": "alert", "src_ip": ends[0], "src_port": sport, "dest_ip": ends[1],
              "dest_port": dport, "proto": alerts.PROTOCOLS.get(protocol, str(protocol))}
    if has_icmp:
        fields.update(icmp_type=pair[0], icmp_code=pair[1])
    return {name: it for name, it in {**fields, "community_id": community}.items() if it is not None}

def event(random, seed, more):
    """The records of an event, and the fields of its line."""
    kind, address = random.choice(((7, address_4), (72, address_6)))
    sensor, number, second = (word(random) for _ in range(3))
    micro = random.choice((*[random.randrange(10**6)] * 7, word(random)))
    sid, gid, rev, place, priority = (word(random) for _ in range(5))
    (source, source_text), (target, target_text) = address(random), address(random)
    protocol, pair = random.choice((*USUAL, random.randrange(256))), (word(random, 16), word(random, 16))
    flags = random.randbytes(2) + bytes([random.choice((0, 0, 1, 1, 2, 255))])
    body = struct.pack(">9I", sensor, number, second, micro, sid, gid, rev, place, priority) + source + target
    body += struct.pack(">2HB", *pair, protocol) + flags
    after, packet = records_after(random, (sensor, number, second))
    is_known = any(pair) or packet is not None and packet.payload is not None and not packet.is_fragment
    moment = EPOCH + timedelta(microseconds=second * 10**6 + micro)
    fields = {"timestamp": f"{moment:%Y-%m-%dT%H:%M:%S}.{moment.microsecond:06}+0000",
              **flow_fields(protocol, (source_text, target_text), pair if is_known else None, seed.to_bytes(2, "big")),
              "alert": rule_fields(flags[2] == 1, gid, sid, rev, place, priority),
              **(packet_fields(packet) if packet else {}), **more}
    return b"".join((record_of(kind, body), *after)), fields

def events(random, count, seed=0, more=()):
    """That many events, each its records and the fields of its line."""
    return (event(random, seed, dict(more)) for _ in range(count))

# --- Alert lines

NAMES = {TCP: "TCP", UDP: "UDP", ICMP: "ICMP"}  # of protocols; others have their number
LIKE_A_LINE = b'a "b" [**] [Classification: c] [Priority: 1] {UDP} 10.0.0.1:1 -> 10.0.0.2:2'

def step(random):
    """From one line to the next at most half a year passes, or times run back."""
    if random.random() < 0.02:
        return timedelta(days=random.randrange(-20, 150))
    return timedelta(seconds=random.choice((0, random.randrange(60), random.randrange(3600))))

def message(random):
    texts = random.randbytes(random.randrange(40)), "é€\U0001f600".encode() * random.randrange(4), b"login seen", LIKE_A_LINE
    return random.choice(texts).replace(b"\n", b" ")

def told_text(data):
    """UTF-8, or else each byte as the character of its number."""
    try:
        return data.decode()
    except UnicodeDecodeError:
        return data.decode("latin-1")

def line_event(random, moment, seed, more):
    """An alert line of this moment, and the fields of its record. The year isn't in the line."""
    gid, sid, rev, priority = (word(random) for _ in range(4))
    msg, category = message(random), random.choice((None, b"Misc activity", b"\xe9\xff{} -> \x00"))
    protocol, address = random.choice((*USUAL, random.randrange(256))), random.choice((address_4, address_6))
    texts = [address(random)[1] for _ in range(2)]
    has_ports = protocol in (TCP, UDP) and (address is address_6 or random.random() < 0.9)
    pair = (word(random, 16), word(random, 16)) if has_ports else None
    ends = [f"{text}:{port}" for text, port in zip(texts, pair)] if has_ports else texts
    named = b"" if category is None else b"[Classification: %b] " % category
    line = b"%b  [**] [%d:%d:%d] %b [**] %b[Priority: %d] {%b} %b\n" % (
        f"{moment:%m/%d-%H:%M:%S.%f}".encode(), gid, sid, rev, msg, named, priority,
        NAMES.get(protocol, f"PROTO:{protocol:03}").encode(), " -> ".join(ends).encode())
    rule = {**rule_fields(False, gid, sid, rev, category is not None, priority), "signature": told_text(msg),
            "category": told_text(category or b"")}
    return line, {"timestamp": f"{moment:%Y-%m-%dT%H:%M:%S.%f}+0000",
                  **flow_fields(protocol, texts, pair, seed.to_bytes(2, "big")), "alert": rule, **more}

def line_events(random, count, year, seed=0, more=()):
    """That many lines, the first of this year, each with the fields of its record."""
    moment = datetime(year, 2, 28, 23, 59, 59)
    for _ in range(count):
        yield line_event(random, moment.replace(microsecond=random.randrange(10**6)), seed, dict(more))
        moment = max(moment + step(random), datetime(year, 1, 1))
