"""Cases that are made: a capture of drawn talks, a configuration, and rules made of what is in it. Used by verify.

docs/manual/configuration.md, events.md and evasions.md have what the lines mean.
"""
import itertools

import packets, verify_captures as captures
from verify_bench import Case
from verify_packets import Item, drawn
from verify_rules import CLASSES, RuleMaker

FRAGMENT_POLICIES = ("first", "last", "bsd", "bsd-right", "linux", "windows", "solaris")
STREAM_POLICIES = ("first", "last", "bsd", "linux", "windows", "solaris", "old-linux", "hpux", "hpux10", "irix", "macos",
                   "vista", "win2003")
BEGINS = (0, 0, 1700000000, 951782397, 2**31 - 3, 2**32 - 4000)  # seconds: the epoch, a leap day, ends of 31 and 32 bits
HOSTS = ("10.0.0.2", "192.0.2.10", "192.0.2.0/24", "10.0.0.1", "2001:db8::2", "2001:db8::/32", "10.0.0.0/8")
PASSED_OVER = ("output alert_fast: alert", "config disable_decode_alerts", "preprocessor http_inspect: global", "dynamicengine /a",
               "preprocessor normalize_ip4")

class Maker:
    """The configuration of a case."""
    def __init__(self, rng):
        self.rng = rng
        self.seconds = rng.choice((1, 2, 3, 30))  # after which sessions and datagrams end
        self.lines = []

    def often(self, share):
        return self.rng.random() < share

    def add(self, text):
        self.lines.append(text.encode())

    def variables(self):
        self.add("var NETS 10.0.0.0/8")
        self.add(f"ipvar HOME_NET {self.rng.choice(('[$NETS,2001:db8::/32]', '[10.0.0.0/8,192.0.2.0/24,!10.0.0.1,2001:db8::/32]', 'any'))}")
        self.add(f"ipvar EXTERNAL_NET {self.rng.choice(('!10.0.0.2', 'any', '[198.51.100.0/24,10.0.0.1,fe80::/10]'))}")
        self.add(f"portvar HTTP_PORTS {self.rng.choice(('[80,8080]', '80', '[1:1024,!53]', '![53,514]'))}")
        self.add(f"config classification: {CLASSES[0]},An attack,1")
        self.add(f"config classification: {CLASSES[1]},Something else,{self.rng.choice((2, 3, 2147483647))}")
        if self.often(0.2):
            self.add(f"config classification: {CLASSES[0]},Said again,4")

    def settings(self):
        if self.often(0.2):
            self.add("config checksum_mode: " + " ".join(self.rng.choice(("all", "none", "noip", "notcp", "noudp", "noicmp"))
                                                         for _ in range(self.rng.randint(1, 2))))
        if self.often(0.75):
            queue = self.rng.choice(("max_queue 1024 log 1024",) * 3 + ("max_queue 2", "log 1", "max_queue 3 log 2", "max_queue 1 log 5"))
            order = self.rng.choice(("", " order_events priority", " order_events content_length"))
            self.add(f"config event_queue: {queue}{order}")
        if self.often(0.2):
            self.add("config detection: search-method ac-split no_stream_inserts")
        for text in self.rng.sample(PASSED_OVER, self.rng.choice((0, 0, 1, 2))):
            self.add(text)

    def engines(self, word, policies, more):
        """Lines of one kind of engine: some for hosts, and perhaps one for all others."""
        for number in range(self.rng.choice((1, 1, 1, 2, 3))):
            parts = [f"policy {self.rng.choice(policies)}" if self.often(0.9) else "", *more()]
            if number or self.often(0.1):
                parts.append(f"bind_to {self.rng.choice(HOSTS) if self.often(0.6) else '[10.0.0.2,192.0.2.0/24,2001:db8::/32]'}")
            self.rng.shuffle(parts)
            text = ", ".join(it for it in parts if it)
            self.add(f"preprocessor {word}:{' ' + text if text else ''}")

    def fragment_parts(self):
        return [f"timeout {self.seconds}" if self.often(0.7) else "", f"min_ttl {self.rng.choice((1, 2, 5))}" if self.often(0.2) else "",
                "detect_anomalies" if self.often(0.1) else "", "overlap_limit 10" if self.often(0.1) else ""]

    def fragments(self):
        if self.often(0.4):
            self.add(f"preprocessor frag3_global: max_frags {self.rng.choice((1, 2, 3, 5, 8, 65536))}")
        if self.often(0.9):
            self.engines("frag3_engine", FRAGMENT_POLICIES, self.fragment_parts)

    def stream_parts(self):
        rng = self.rng
        ports = rng.choice(("ports both all",) * 4 + ("ports client 80 8080", "ports server 80", "ports client all, ports server 21", "",
                                                     "ports both none"))
        return [ports, f"timeout {self.seconds}" if self.often(0.7) else "",
                f"require_3whs{rng.choice(('', ' 0', ' 1', ' 3'))}" if self.often(0.25) else "",
                f"max_queued_bytes {rng.choice((0, 1024, 2000))}" if self.often(0.2) else "",
                f"max_queued_segs {rng.choice((0, 2, 3, 5))}" if self.often(0.2) else "",
                "overlap_limit 10" if self.often(0.1) else "", "small_segments 3 bytes 150" if self.often(0.1) else ""]

    def sessions(self):
        rng, parts = self.rng, []
        if self.often(0.5):
            parts += [f"track_tcp {rng.choice(('yes', 'yes', 'yes', 'no'))}"] if self.often(0.5) else []
            parts += [f"track_udp {rng.choice(('yes', 'yes', 'no'))}"] if self.often(0.5) else []
            parts += [f"max_tcp {rng.choice((1, 2, 3, 1000))}"] if self.often(0.5) else []
            parts += [f"max_udp {rng.choice((1, 2, 3, 1000))}"] if self.often(0.5) else []
            self.add("preprocessor stream5_global" + (f": {', '.join(parts)}" if parts else ""))
        if self.often(0.9):
            self.engines("stream5_tcp", STREAM_POLICIES, self.stream_parts)
        if self.often(0.7):
            self.add(f"preprocessor stream5_udp: timeout {self.seconds}" + (", ignore_any_rules" if self.often(0.1) else ""))

    def filters(self, rules):
        rng, given = self.rng, set()
        for _ in range(rng.choice((0, 0, 1, 2, 4))):
            marks = rng.choice(((1, rng.randint(1, rules)), (1, 0), (0, 0), (2, 0), (1, rng.randint(1, rules))))
            if marks not in given:
                given.add(marks)
                self.add(f"event_filter gen_id {marks[0]}, sig_id {marks[1]}, type {rng.choice(('limit', 'threshold', 'both'))}, "
                         f"track by_{rng.choice(('src', 'dst'))}, count {rng.choice((1, 2, 3, 5))}, seconds {rng.choice((1, 2, 60))}")
        for _ in range(rng.choice((0, 0, 0, 1, 2))):
            who = rng.choice(("", ", track by_src, ip 10.0.0.1", ", track by_dst, ip [10.0.0.0/8,!10.0.0.2]", ", track by_dst, ip $HOME_NET"))
            marks = rng.choice(((1, rng.randint(1, rules)), (1, rng.randint(1, rules)), (2, 0), (3, rng.randint(1, rules))))
            self.add(f"suppress gen_id {marks[0]}, sig_id {marks[1]}{who}")

    def hosts(self):
        if not self.often(0.3):
            return None
        return [b"# hosts"] + [f"{name} {self.rng.choice((*FRAGMENT_POLICIES, '-'))} {self.rng.choice((*STREAM_POLICIES, '-'))}".encode()
                               for name in self.rng.sample(HOSTS, self.rng.randint(1, 4))]

    def words(self):
        out = []
        if self.often(0.6):
            out += ["--flush-point", str(self.rng.choice((1, 1, 2, 5, 20, 64, 65536)))]
        if self.often(0.1):
            out += ["-k", self.rng.choice(("all", "none", "noip", "notcp", "noudp", "noicmp"))]
        if self.often(0.05):
            out += ["-S", "HOME_NET=10.0.0.0/8"]
        if self.often(0.1):
            out += ["-q"]
        return out

    def case(self, records, items):
        count, rng = self.rng.choice((1, 4, 12, 25, 40)), self.rng
        self.variables()
        self.settings()
        self.fragments()
        self.sessions()
        self.filters(count)
        rules = RuleMaker(rng, items, {"bits": self.often(0.4), "passes": self.often(0.2)}).rules(count)
        if self.often(0.2):
            rules[0] = b'alert ip any any -> any any (msg:"all"; sid:1;)'
        lines = self.lines + rules
        if self.often(0.3):  # what must not come in this order stays: variables of a line come before it
            lines = self.lines[:7] + rng.sample(lines[7:], len(lines) - 7)
        return Case(lines, records, self.words(), self.hosts())

def moments(rng, count, seconds):
    """Moments in nanoseconds, with gaps at which sessions, datagrams and intervals end, and just before and after."""
    at, is_nano = rng.choice(BEGINS) * 10**6, rng.random() < 0.1
    limits = [it * 10**6 + by for it in (seconds, 1, 2) for by in (-1, 0, 1)]
    for _ in range(count):
        yield at * 1000 + (rng.randrange(1000) if is_nano else 0)
        way = rng.random()
        if way < 0.05:
            at += rng.choice(limits)
        elif way < 0.07:
            at = max(0, at - rng.choice((1, 1000, 10**6)))
        else:
            at += rng.choice((0, 1, 1000, 20000))

def made_case(rng):
    frames, items = drawn(rng, rng.choice((1, 2, 4, 8, 12)))
    while not items:
        frames, items = drawn(rng, 2)
    frames, maker = frames[:rng.choice((20, 60, 150, 600))], Maker(rng)
    link, cut = rng.choice((captures.ETHERNET,) * 10 + (captures.RAW, captures.COOKED)), itertools.count()
    records = []
    for moment, frame in zip(moments(rng, len(frames), maker.seconds), frames):
        data = frame
        if link != captures.ETHERNET and len(frame) > 14:
            data = frame[14:] if link == captures.RAW else bytes.fromhex("0000000100060200000000010000") + frame[12:]
        records.append(captures.record(moment, link, data))
    return maker.case(records, items)

# --- Rules for captures of others

def item_of(record):
    """What a rule could be made of, of a record of Ethernet, raw IP or the cooked link; None where it holds no plain packet."""
    data = record.data[{captures.ETHERNET: 14, captures.RAW: 0, captures.COOKED: 16}.get(record.link, 0):]
    if len(data) < 20 or data[0] >> 4 not in (4, 6) or data[0] >> 4 == 6 and len(data) < 48:
        return None
    is_v4 = data[0] >> 4 == 4
    protocol, head = (data[9], (data[0] & 15) * 4) if is_v4 else (data[6], 40)
    source, target = (data[12:16], data[16:20]) if is_v4 else (data[8:24], data[24:40])
    body = data[head:int.from_bytes(data[2:4], "big")] if is_v4 else data[40:40 + int.from_bytes(data[4:6], "big")]
    ttl, tos = (data[8], data[1]) if is_v4 else (data[7], int.from_bytes(data[:2], "big") >> 4 & 255)
    fields = {"ttl": ttl, "tos": tos, "id": int.from_bytes(data[4:6], "big") if is_v4 else 0, "protocol": protocol}
    name, size = {6: ("tcp", 20), 17: ("udp", 8)}.get(protocol, ("ip", 0))
    if len(body) < size:
        return None
    ports = (int.from_bytes(body[:2], "big"), int.from_bytes(body[2:4], "big")) if size else (0, 0)
    if name == "tcp":
        size = max(20, (body[12] >> 4) * 4)
        fields.update(seq=int.from_bytes(body[4:8], "big"), ack=int.from_bytes(body[8:12], "big"), flags=body[13] & 63,
                      window=int.from_bytes(body[14:16], "big"))
    ends = [(packets.ipaddress.ip_address(it), port) for it, port in zip((source, target), ports)]
    return Item("packet", name, *ends, body[size:][:1500], fields)

def case_for(own, rng):
    """A case of the user's records, with a configuration and rules that are made for them."""
    items = [it for it in map(item_of, rng.sample(own.records, min(len(own.records), 200))) if it]
    case = Maker(rng).case(own.records, items or drawn(rng, 4)[1])
    return case._replace(words=own.words or case.words, hosts=case.hosts if own.hosts is None else own.hosts)
