"""The cases of tools/measure/faults: commands with their files, and what each writes, worked out by hand.

Nothing here is an output of the program: a line is put together from its record's moment, the number of the rule that
matches there, and the ends of what it matches, by the form of alert lines; an event of Unified2 from the same, by the form
of its records; the packets that `--generate` makes are made once more, by the manual's words on them. The records that
snort_eve reads, and its lines, are those of tools/lib/field_cases.py.
"""
import collections, struct
from base64 import b64encode

from field_cases import EVE, EVENT, FRAME, LINE, PACKET

# Packets: C is 10.0.0.1, S is 10.0.0.2; moments are whole seconds.
C, S = bytes([10, 0, 0, 1]), bytes([10, 0, 0, 2])
C6, S6 = bytes.fromhex("20010db8000000000000000000000001"), bytes.fromhex("20010db8000000000000000000000002")
FLAGS = {"F": 1, "S": 2, "R": 4, "A": 16}

def summed(data):  # RFC 1071: a sum in ones' complement is a remainder by 65535
    return (-int.from_bytes(data + b"\0" * (len(data) % 2), "big") % 65535).to_bytes(2, "big")

def ethernet(kind, packet):
    return bytes.fromhex("020000000002020000000001") + struct.pack(">H", kind) + packet

def ipv4(source, target, protocol, body, ident=1, fragment=0):
    head = struct.pack(">BBHHHBBH", 69, 0, 20 + len(body), ident, fragment, 64, protocol, 0) + source + target
    return ethernet(0x0800, head[:10] + summed(head) + head[12:] + body)

def ipv6(source, target, following, body):
    return ethernet(0x86DD, struct.pack(">IHBB", 6 << 28, len(body), following, 64) + source + target + body)

def datagram(source, target, ports, data):  # RFC 768, and RFC 8200 section 8.1: either sum has these numbers
    body = struct.pack(">HHHH", *ports, 8 + len(data), 0) + data
    return body[:6] + summed(source + target + struct.pack(">HH", 17, len(body)) + body) + body[8:]

def U(data, source=C, ports=(1000, 2000)):
    return ipv4(source, S, 17, datagram(source, S, ports, data))

def U6(data):
    return ipv6(C6, S6, 17, datagram(C6, S6, (1000, 2000), data))

def T(way, flags, seq, ack, data=b"", client=1000):
    source, target, ports = (C, S, (client, 80)) if way == ">" else (S, C, (80, client))
    head = struct.pack(">HHIIBBHHH", *ports, seq, ack, 80, sum(FLAGS[it] for it in flags), 65535, 0, 0) + data
    sum_of = summed(source + target + struct.pack(">HH", 6, len(head)) + head)
    return ipv4(source, target, 6, head[:16] + sum_of + head[18:])

def F(offset, more, data):
    return ipv4(C, S, 253, data, 7, more << 13 | offset // 8)

# Captures.

def pcap(packets, moments=None):
    records = [struct.pack("<IIII", moment, 0, len(packet), len(packet)) + packet
               for moment, packet in zip(moments or range(len(packets)), packets)]
    return struct.pack("<IHHIIII", 0xA1B2C3D4, 2, 4, 0, 0, 65535, 1) + b"".join(records)

def block(kind, body):  # of pcapng: padded to four bytes, its length on both sides
    body += bytes(-len(body) % 4)
    return struct.pack("<II", kind, 12 + len(body)) + body + struct.pack("<I", 12 + len(body))

SECTION, INTERFACE, STATISTICS, ENHANCED = 0x0A0D0D0A, 1, 5, 6

def pcapng(packets):
    """One interface of Ethernet, whose times are microseconds, and a block after each packet that is passed over."""
    blocks = [block(SECTION, struct.pack("<IHHq", 0x1A2B3C4D, 1, 0, -1)), block(INTERFACE, struct.pack("<HHI", 1, 0, 65535))]
    for moment, packet in enumerate(packets):
        upper, lower = divmod(moment * 10**6, 2**32)
        blocks.append(block(ENHANCED, struct.pack("<IIIII", 0, upper, lower, len(packet), len(packet)) + packet))
        blocks.append(block(STATISTICS, struct.pack("<III", 0, upper, lower)))
    return b"".join(blocks)

def unified2_ends(records):
    """The same of Unified2 records."""
    ends, at = [], 0
    while at + 8 <= len(records):
        at += 8 + struct.unpack_from(">I", records, at + 4)[0]
        ends += [at] * (at <= len(records))
    return ends

def line_ends(lines):
    """The same of lines."""
    return [at for at, byte in enumerate(lines, 1) if byte == 10]

def record_ends(capture):
    """How many bytes of a capture are read where each of its whole records is."""
    is_ng, ends = capture.startswith(struct.pack("<I", SECTION)), []
    at = 0 if is_ng else 24
    while at + 16 <= len(capture):
        kind, length, of_pcap = struct.unpack_from("<III", capture, at)
        at += length if is_ng else 16 + of_pcap
        if at <= len(capture) and (kind == ENHANCED or not is_ng):
            ends.append(at)
    return ends

# Lines: pairs of the record, from 0 on, at which they come (END: at the capture's end) and their bytes.
END = 1 << 32
UDP, TCP = "{UDP} 10.0.0.1:1000 -> 10.0.0.2:2000", "{TCP} 10.0.0.1:1000 -> 10.0.0.2:80"
UDP6, FRAGMENT = "{UDP} 2001:db8::1:1000 -> 2001:db8::2:2000", "{PROTO:253} 10.0.0.1 -> 10.0.0.2"

def line(record, sid, ends=UDP, second=None):
    """A line of a rule as `rules` writes it; without another second its moment is its record's number."""
    minute, second = divmod(record if second is None else second, 60)
    return record, f"01/01-00:{minute:02}:{second:02}.000000  [**] [1:{sid}:0] t [**] [Priority: 0] {ends}\n".encode()

def of_unified2(kind, *parts):
    body = b"".join(parts)
    return struct.pack(">II", kind, len(body)) + body

def events(record, number, sid, packet, source, target):
    """The event of a rule without class and revision, between the ports 1000 and 2000 of UDP, and its packet."""
    event = struct.pack(">9I", 0, number, record, 0, sid, 1, 0, 0, 0)
    ends = source + target + struct.pack(">HHBBBB", 1000, 2000, 17, 0, 0, 0)
    told = struct.pack(">7I", 0, number, record, record, 0, 1, len(packet))
    return record, of_unified2(72 if len(source) == 16 else 7, event, ends) + of_unified2(2, told, packet)

HANDSHAKE = [T(">", "S", 0, 0), T("<", "SA", 100, 1), T(">", "A", 1, 101)]
STREAM = b"preprocessor stream5_global: track_tcp yes\npreprocessor stream5_tcp: policy first, ports both all\n"
UDP_FLOWS = b"preprocessor stream5_udp: timeout 30\n"

def rules(*options, head="alert udp any any -> any any"):
    return b"".join(f'{head} (msg:"t"; {it})\n'.encode() for it in options)

FRAGMENTED = {
    "p": pcap([F(0, 1, b"C" * 8), F(8, 1, b"A" * 16), F(8, 0, b"B" * 24)]),
    "r": b"preprocessor frag3_engine: policy first\n" + rules(
        'content:"AAAAAAAAAAAAAAAABBBBBBBB"; flow:only_frag; sid:1;',
        'content:"BBBBBBBBBBBBBBBBBBBBBBBB"; flow:only_frag; sid:2;', head="alert ip any any -> any any")}
INCLUDE = {"r": STREAM + b"include a\n", "p": pcap([*HANDSHAKE, T(">", "A", 1, 101, b"evil")]),
           "a": rules('content:"evil"; flow:only_stream; pcre:"/vil/"; sid:1;', head="alert tcp any any -> any any")}
LONG6 = datagram(C6, S6, (1000, 2000), b"x" * 8 + b"abc")
SITE = {"snort.conf": rb"""ipvar HOME_NET 10.0.0.0/8
ipvar EXTERNAL_NET any
portvar HTTP_PORTS [80,8080]
var RULE_PATH rules
config disable_decode_alerts
config checksum_mode: all
config detection: search-method ac-split search-optimize max-pattern-len 20
config event_queue: max_queue 8 log 5 order_events content_length
preprocessor normalize_ip4
preprocessor frag3_global: max_frags 65536
preprocessor frag3_engine: policy windows detect_anomalies overlap_limit 10 min_fragment_length 100 timeout 180
preprocessor stream5_global: track_tcp yes, \
   track_udp yes, track_icmp no, max_tcp 262144, max_udp 131072, \
   max_active_responses 2, min_response_seconds 5
preprocessor stream5_tcp: policy windows, detect_anomalies, require_3whs 180, \
   overlap_limit 10, small_segments 3 bytes 150, timeout 180, \
   ports client 21 25, ports both 80 8080
preprocessor stream5_udp: timeout 180
output unified2: filename merged.log, limit 128
include classification.config
include $RULE_PATH/local.rules
""", "classification.config": b"config classification: web-application-attack,Web Application Attack,1\n",
    "rules/local.rules": b'alert tcp $EXTERNAL_NET any -> $HOME_NET $HTTP_PORTS (msg:"LOCAL attack word"; flow:'
    b'to_server,established; content:"attack"; fast_pattern; nocase; classtype:web-application-attack; sid:1000001; '
    b'rev:2;)\nalert udp $HOME_NET any -> $HOME_NET 53 (msg:"LOCAL name"; content:"gen-1"; sid:1000002; rev:1;)\n'}


def generated(seed, count):
    """The packets that `--generate` makes, as the records, clients and data of those that have data."""
    value, steps, packets = seed, [0] * 16, []
    def draw(most):
        nonlocal value
        value = (value * 1103515245 + 12345) % 2**31
        return value // 65536 % most
    for record in range(count):
        if draw(4) == 0:
            packets.append((record, f"10.1.0.{1 + draw(16)}:1024", b"gen-%d" % draw(1000)))
            continue
        session = draw(16)
        if steps[session] == 3:
            has_word, data = draw(50) == 0, bytes(97 + draw(26) for _ in range(64))
            packets.append((record, f"10.1.0.{1 + session}:{40000 + session}", b"attack" + data[6:] if has_word else data))
        steps[session] = 3 if steps[session] == 4 else steps[session] + 1
    return packets

def site_lines(seed, count):
    """The lines of both rules of SITE: of packets, and at the end of the streams, of which none has 1024 bytes by then."""
    def told(millisecond, number, text, ends):
        return f"01/01-00:00:00.{millisecond:03}000  [**] [1:{1000000 + number}:{3 - number}] LOCAL {text}] {ends}\n".encode()
    def attack(millisecond, client):
        return told(millisecond, 1, "attack word [**] [Classification: Web Application Attack] [Priority: 1",
                    f"{{TCP}} {client} -> 10.2.0.1:80")
    lines, streams = [], {}
    for record, client, data in generated(seed, count):
        if client.endswith(":1024"):
            if b"gen-1" in data:
                lines.append((record, told(record, 2, "name [**] [Priority: 0", f"{{UDP}} {client} -> 10.2.0.2:53")))
            continue
        streams[client] = streams.get(client, b"") + data
        if b"attack" in data:
            lines.append((record, attack(record, client)))
    attacked = [it for it, data in streams.items() if b"attack" in data]
    assert len(attacked) < 2 and all(len(it) < 1024 for it in streams.values())  # else their order and flushes count, too
    return lines + [(END, attack(count - 1, it)) for it in attacked]

# Lines of snort_eve: pairs of the record at which they come, from 0 on (END: at the file's end), and their bytes.
EVE_PACKET = f',"payload_printable":"abc","packet":"{b64encode(FRAME).decode()}","packet_info":{{"linktype":1}}'
ALONE, WITH_PACKET = ((EVE % ("", it)).encode() for it in ("", EVE_PACKET))

def eve_file(count):
    """That many events with their packets, and one without, which waits for its packet until the end."""
    return count * (EVENT + PACKET) + EVENT, [(2 * it + 1, WITH_PACKET) for it in range(count)] + [(END, ALONE)]

def eve_case(name, *counts, cut=0):
    """A case of snort_eve over such files, of which the last one lacks that many bytes, and so its last event."""
    made = [eve_file(it) for it in counts]
    files = {f"f{place}": records for place, (records, _) in enumerate(made)}
    lines = [(f"f{place}", *line) for place, (_, lines) in enumerate(made) for line in lines]
    if cut:
        files[f"f{len(made) - 1}"], lines = made[-1][0][:-cut], lines[:-1]
    return Case(name, " ".join(files), files, lines, 2 if cut else 0, False, None, "snort_eve")

def eve_lines(name, *counts, last=b"", capture=None):
    """A case of snort_eve over files of that many alert lines, the last file with what is no whole one.

    Their year is that of a capture, if one is given, which is read before them.
    """
    files = {f"l{place}": it * (LINE + "\n").encode() for place, it in enumerate(counts)}
    files[f"l{len(counts) - 1}"] += last
    lines = [(f"l{place}", number, (EVE % ("t", "")).encode()) for place, it in enumerate(counts) for number in range(it)]
    words = f"--lines {'--capture p' if capture else '--year 1970'} {' '.join(files)}"
    return Case(name, words, {"p": capture, **files} if capture else files, lines, 2 if last else 0, False, None, "snort_eve")

# A case: its name, its words, its files, its lines, the status, and whether it is run with several lanes.
# `faults` names the groups of faults that a case is for, where these aren't all; `program` is the one that runs. A line of
# snort_eve has the name of its file in front.
Case = collections.namedtuple("Case", "name words files lines status spread faults program",
                              defaults=({}, [], 0, True, None, "snort"))
CASES = [
    Case("fragments", "-c r -r p", FRAGMENTED, [line(2, 1, FRAGMENT)]),
    Case("hosts", "-c r -r p --host-table h", {**FRAGMENTED, "h": b"10.0.0.2 last linux\n"}, [line(2, 2, FRAGMENT)]),
    Case("stream", "-c r -r p --flush-point 4", {
        "r": STREAM + rules('content:"attk"; sid:1;', head="alert tcp any any -> any 80"),
        "p": pcap([T(">", "S", 4294967293, 0), T("<", "SA", 100, 4294967294), T(">", "A", 4294967294, 101),
                   T(">", "A", 4294967294, 101, b"at"), T(">", "A", 0, 101, b"tk"), T("<", "A", 101, 2)])},
         [line(5, 1, TCP)]),
    Case("overlaps", "-c r -r p --flush-point 4", {
        "r": STREAM.replace(b"first", b"last") + rules('content:"ZWgh"; flow:only_stream; sid:1;',
             'content:"efgh"; flow:only_stream; sid:2;', head="alert tcp any any -> any any"),
        "p": pcap([*HANDSHAKE, T(">", "A", 1, 101, b"abcd"), T("<", "A", 101, 5), T(">", "A", 3, 101, b"XYZW"),
                   T(">", "A", 5, 101, b"efgh"), T("<", "A", 101, 9)])}, [line(7, 2, TCP)]),
    Case("full-table", "-c r -r p", {
        "r": STREAM.replace(b"yes", b"yes, max_tcp 1") + rules(
            'content:"evil"; flow:only_stream; sid:1;', "flags:S; sid:2;", head="alert tcp any any -> any any"),
        "p": pcap([*HANDSHAKE, T(">", "A", 1, 101, b"evil"), T(">", "S", 0, 0, client=1001)])},
         [line(0, 2, TCP), line(4, 1, TCP), line(4, 2, TCP.replace("1000", "1001"))]),
    Case("site", "-c snort.conf --generate 20 --seed 19797", SITE, site_lines(19797, 20)),
    Case("site-test", "-T -c snort.conf", SITE, spread=False),
    Case("include", "-c r -r p", INCLUDE, [line(END, 1, TCP, 3)]),
    Case("truncated", "-c r -r p", {**INCLUDE, "p": INCLUDE["p"] + pcap(HANDSHAKE)[24:44]}, [line(END, 1, TCP, 3)], 2),
    Case("ipv6", "-c r -r p", {
        "r": b"preprocessor frag3_engine: policy linux\n" + rules('content:"abc"; sid:1;'),
        "p": pcap([ipv6(C6, S6, 0, bytes([17, 0, 1, 4, 0, 0, 0, 0]) + datagram(C6, S6, (1000, 2000), b"abc")),
                   ipv6(C6, S6, 44, struct.pack(">BBHI", 17, 0, 0 | 1, 7) + LONG6[:16]),
                   ipv6(C6, S6, 44, struct.pack(">BBHI", 17, 0, 16, 7) + LONG6[16:])])},
         [line(0, 1, UDP6), line(2, 1, UDP6)]),
    Case("pcre", "-c r -r p", {
        "r": rules('pcre:"/AB/i"; content:"c"; distance:0; sid:1;', 'pcre:"/^x[a-z]{2,4}c$/"; sid:2;'),
        "p": pcap([U(b"xabc"), U(b"xyz")])}, [line(0, 1), line(0, 2)]),
    Case("bits", "-c r -r p", {"r": UDP_FLOWS + rules(
        'content:"a"; flowbits:set,x; flowbits:noalert; sid:1;', 'content:"b"; flowbits:isset,x; sid:2;'),
        "p": pcap([U(b"ab")])}, [line(0, 2)]),
    Case("filters", "-c r -r p", {
        "r": b"event_filter gen_id 1, sig_id 1, type limit, track by_src, count 1, seconds 60\n"
        b"suppress gen_id 1, sig_id 3, track by_src, ip 10.0.0.1\n" + rules('content:"a"; sid:1;',
        'content:"a"; detection_filter:track by_src, count 2, seconds 60; sid:2;', 'content:"a"; sid:3;'),
        "p": pcap([U(b"a")] * 4, [0, 1, 59, 60])}, [line(0, 1), line(2, 2, second=59), line(3, 1, second=60)]),
    Case("counts", "-c r -r p --stats", {"r": rules('content:"xABC"; nocase; sid:1;', 'content:"bc"; nocase; sid:2;'),
         "p": pcap([U(b"zabc"), U(b"XaBc")])}, [line(0, 2), line(1, 1), line(1, 2)]),
    Case("skipped", "-c r -r p --skip-refused", {
        "r": rules('content:"x"; http_uri; sid:1;', 'pcre:"/a(?=b)/"; sid:2;', 'content:"abc"; sid:3;'),
        "p": pcap([U(b"abc")])}, [line(0, 3)]),
    Case("refused", "-c r -r p", {"r": rules('pcre:"/a(?=b)/"; sid:2;')}, status=1, spread=False),
    Case("batches", "-c r -r p", {
        "r": UDP_FLOWS + rules('content:"abc"; sid:1;'),
        "p": pcap([U(b"abc" + b"x" * 247, ports=(1000 + it % 16, 2000)) for it in range(300)])},
         [line(it, 1, UDP.replace("1000", str(1000 + it % 16))) for it in range(300)]),
    # Expressions that read whole payloads are work enough for threads, of which small captures start none.
    Case("threads", "-c r -r p", {
        "r": UDP_FLOWS + rules('content:"abc"; sid:1;', *(f'pcre:"/x[0-9]{{{it}}}y/"; sid:{it};' for it in range(2, 10))),
        "p": pcap([U((b"xyz" if it % 100 else b"abc") + b"x" * 1397, ports=(1000 + it % 16, 2000)) for it in range(1536)])},
         [line(it, 1, UDP.replace("1000", str(1000 + it % 16))) for it in range(0, 1536, 100)], faults=["threads"]),
    Case("pcapng", "-c r -r p", {"r": rules('content:"abc"; sid:1;'), "p": pcapng([U(b"abc"), U(b"xyz"), U6(b"xabc")])},
         [line(0, 1), line(2, 1, UDP6)]),
    Case("pcapng-blocks", "-c r -r p", {
        "r": UDP_FLOWS + rules('content:"abc"; sid:1;'), "p": pcapng([U(b"abc" + b"x" * 1247) for _ in range(60)])},
         [line(it, 1) for it in range(60)]),
    Case("pcapng-cut", "-c r -r p", {"r": rules('content:"abc"; sid:1;'), "p": pcapng([U(b"abc"), U(b"abc")])[:-40]},
         [line(0, 1)], 2),
    Case("unified2", "-c r -r p --unified2", {
        "r": UDP_FLOWS + rules('content:"abc"; sid:1;', 'content:"x"; sid:2;'),
        "p": pcap([U(b"xabc"), U(b"z"), U6(b"abc")])},
         [events(0, 1, 1, U(b"xabc"), C, S), events(0, 2, 2, U(b"xabc"), C, S), events(2, 3, 1, U6(b"abc"), C6, S6)]),
    Case("unified2-pcapng", "-c r -r p --unified2", {
        "r": rules('content:"abc"; sid:1;'), "p": pcapng([U(b"abc"), U6(b"abc")])},
         [events(0, 1, 1, U(b"abc"), C, S), events(1, 2, 1, U6(b"abc"), C6, S6)]),
    Case("words", "-c r", status=1, spread=False),
    Case("version", "-V", spread=False),
    eve_case("eve", 2), eve_case("eve-files", 1, 2), eve_case("eve-blocks", 470), eve_case("eve-cut", 1, 1, cut=1),
    eve_lines("eve-lines", 1, 700), eve_lines("eve-no-line", 2, 1, last=LINE.encode()),
    eve_lines("eve-capture", 1, 1, capture=pcap([U(b"abc")] * 2, [0, 40000000])),  # the second record is of 1971
    eve_lines("eve-capture-ng", 1, capture=pcapng([U(b"abc")])),
    Case("eve-no-record", "--lines --capture p l", {"p": pcap([]), "l": f"{LINE}\n".encode()}, [], 2, False, None, "snort_eve"),
    Case("eve-words", "--host", status=1, spread=False, program="snort_eve"),
]
