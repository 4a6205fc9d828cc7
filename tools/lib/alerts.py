"""Alerts as they are read back: from alert lines, or from Unified2 records. Used by eve and report.

A line is that of docs/manual/events.md, with the year that Snort's `-y` writes after the day, or without:

    MM/DD[/YY]-HH:MM:SS.uuuuuu  [**] [gid:sid:rev] msg [**] [Classification: text] [Priority: n] {PROTOCOL} from -> to

What is in `msg` may look like the rest of a line, so the rest is taken from the end. Records are those of
docs/manual/unified2.md: an event, of kind 7 or 72, and the packet after it, of kind 2. Other kinds are passed over.
"""
import argparse, calendar, contextlib, datetime, functools, os, re, socket, struct, sys
from collections import namedtuple

import capture_records, captures, packet_heads, rule_texts, scripts
from rule_texts import text_of

# The moment is in microseconds since 1970; `place` is that of the class among the configuration's, from 1 on, and 0 where
# the record has no number of a class; ports are None where the item has none; icmp is a type and a code; packet is a link
# type and the bytes of a record. A text that a record doesn't have is empty.
Alert = namedtuple("Alert", "moment is_blocked gid sid rev msg category place priority "
                            "protocol source sport target dport icmp packet")
OF_RULE, OF_FLOW = slice(1, 9), slice(9, 15)  # the parts that come again and again
new_tuple = tuple.__new__
PROTOCOLS = {1: "ICMP", 2: "IGMP", 6: "TCP", 17: "UDP", 41: "IPv6", 47: "GRE", 50: "ESP", 51: "AH", 58: "IPv6-ICMP",
             103: "PIM", 132: "SCTP"}  # by the names of IANA, as EVE has them
NUMBERS = {name.upper(): number for number, name in PROTOCOLS.items()}
ICMP, TCP, UDP, ICMP6 = 1, 6, 17, 58
WITH_PORTS = TCP, UDP
# A line is three parts, each of which comes again and again: up to the stars, up to the protocol, and the rest.
STARS = b"  [**] "
SECOND = re.compile(rb"(\d\d)/(\d\d)(?:/(\d\d))?-(\d\d):(\d\d):(\d\d)")
RULE = re.compile(rb"\[(\d{1,10}):(\d{1,10}):(\d{1,10})\] (.*) \[\*\*\] (?:\[Classification: (.*)\] )?"
                  rb"\[Priority: (\d{1,10})\]", re.S)
ENDS = re.compile(rb"\{(?:PROTO:(\d{3})|([A-Z0-9-]+))\} (\S+) -> (\S+)")
USUAL_ENDS = re.compile(rb"\{(TCP|UDP)\} ([0-9.]+):(0|[1-9]\d{0,4}) -> ([0-9.]+):(0|[1-9]\d{0,4})")
PORT = re.compile(r"(.*):(0|[1-9]\d{0,4})\Z")
PACKET, EVENTS = 2, {7: struct.Struct(">9I4s4s2H4B"), 72: struct.Struct(">9I16s16s2H4B")}
PACKET_HEAD = struct.Struct(">7I")
LONGEST_BODY = 1048576
NO_VALUE = re.compile(r"--[\w-]+=--|-\w--")

class Wrong(Exception):
    """A line, or a record, that is no alert."""

# --- Lines

def latest_year(month, day, today):
    """The latest year in which this date isn't later than today."""
    for year in range(today.year, today.year - 9, -1):  # two leap years are at most eight years apart
        if day <= calendar.monthrange(year, month)[1] and datetime.date(year, month, day) <= today:
            return year
    raise ValueError

def year_after(before, month, day):
    """The year of a date that comes after another one, in which times may run back.

    A date that is more than half a year earlier in the year is in the next one, and one that is more than eleven months
    later in the one before, since a capture without an alert for that long is rarer than times that run back.
    """
    ahead = (datetime.date(2000, month, day) - before.replace(year=2000)).days
    return before.year + (ahead < -183) - (ahead > 335)

class Years:
    """The dates of the lines of a file, which have no year.

    The first one has the year that is asked for; else that in which it comes after a date that is known, that of a capture's
    first record; else the latest one in which it isn't after today, a guess of which `tell` hears. Each further one comes
    after the one before. A line with a year of its own has that.
    """
    def __init__(self, asked=None, known=None, tell=lambda year: None):
        self.asked, self.before, self.tell = asked, known, tell
        self.date = self.midnight = self.text = self.second = None  # of the line before, and what these give

    def year_of(self, month, day):
        if self.before:
            return year_after(self.before, month, day)
        if self.asked:
            return self.asked
        return latest_year(month, day, datetime.datetime.now(datetime.timezone.utc).date())

    def midnight_of(self, month, day, own):
        """The second at which a date begins."""
        try:
            datetime.date(2000, month, day)
            year = self.year_of(month, day) if own is None else 2000 + own
        except ValueError:
            raise Wrong("no such date") from None
        try:
            date = datetime.date(year, month, day)
        except ValueError:
            raise Wrong(f"no such date in {year}") from None
        if own is None and not (self.before or self.asked):
            self.tell(year)
        self.before = date
        return calendar.timegm(date.timetuple())

    def second_of(self, text):
        """The second that is ahead of a line."""
        if text != self.text:
            if not (found := SECOND.fullmatch(text)):
                raise Wrong("no alert line")
            date, (hour, minute, second) = text[:-9], map(int, found.group(4, 5, 6))
            if hour > 23 or minute > 59 or second > 59:
                raise Wrong("no such time")
            if date != self.date:
                month, day, own = (it and int(it) for it in found.group(1, 2, 3))
                self.midnight, self.date = self.midnight_of(month, day, own), date
            self.text, self.second = text, self.midnight + 3600 * hour + 60 * minute + second
        return self.second

@functools.lru_cache(maxsize=65536)
def packed(text):
    """The bytes of an address; none where it is no address."""
    try:
        return socket.inet_pton(socket.AF_INET6 if ":" in text else socket.AF_INET, text)
    except (OSError, ValueError):  # ValueError where a byte 0 is in it
        return b""

@functools.lru_cache(maxsize=65536)
def usual_address(data):
    """An address of version 4 as text; none where it is no address."""
    text = data.decode()
    return text if packed(text) else ""

def ends(source, target, has_ports):
    """Both ends of a line, as address, port, address, port.

    A port follows a colon, also that of an address of version 6: what can be read as an address and a port is read so.
    """
    pair = [PORT.match(it) for it in (source, target)] if has_ports else [None]
    if all(it and packed(it[1]) and int(it[2]) < 65536 for it in pair):
        (source, sport), (target, dport) = [(it[1], int(it[2])) for it in pair]
    else:
        sport = dport = None
    if not packed(source) or len(packed(source)) != len(packed(target)):
        raise Wrong("no two addresses")
    return source, sport, target, dport

@functools.lru_cache(maxsize=65536)
def rule_part(text):
    """gid, sid, rev, msg, class, its place and priority. The place is 0 without a class, and unknown where a line names one."""
    if not (found := RULE.fullmatch(text)):
        raise Wrong("no alert line")
    gid, sid, rev, msg, category, priority = found.groups()
    return int(gid), int(sid), int(rev), text_of(msg), text_of(category or b""), 0 if category is None else None, int(priority)

@functools.lru_cache(maxsize=16384)
def ends_part(text):
    """Protocol, and both ends. What is usual is read at once; all could be read as what isn't."""
    if found := USUAL_ENDS.fullmatch(text):
        name, source, sport, target, dport = found.groups()
        source, sport, target, dport = usual_address(source), int(sport), usual_address(target), int(dport)
        if source and target and sport < 65536 and dport < 65536:
            return TCP if name == b"TCP" else UDP, source, sport, target, dport
    if not (found := ENDS.fullmatch(text)):
        raise Wrong("no alert line")
    number, name, source, target = found.groups()
    protocol = int(number) if number else NUMBERS.get(name.decode(), 256)
    if protocol > 255:
        raise Wrong("no such protocol")
    return (protocol, *ends(text_of(source), text_of(target), protocol in WITH_PORTS))

def alert_of_line(line, years):
    """The alert of a line, without what ends it."""
    stamp, _, rest = line.partition(STARS)
    middle = rest.rfind(b"] {") + 1  # of what is after it nothing may look like this
    second, _, micro = stamp.partition(b".")
    if not middle or len(micro) != 6 or not micro.isdigit():
        raise Wrong("no alert line")
    rule, ends = rule_part(rest[:middle]), ends_part(rest[middle + 1:])
    moment = years.second_of(second) * 1000000 + int(micro)  # last, since dates of what is no alert don't count
    return new_tuple(Alert, (moment, False, *rule, *ends, None, None))

def of_lines(file, name, years, tell, first=1):
    """The alerts of the lines of a file, from the one of this number on; of a line that is none, `tell` hears."""
    for number, line in enumerate(file, first):
        try:
            if line[-1:] != b"\n":
                raise Wrong("no line feed ends the line, so it may be cut off")
            yield alert_of_line(line[:-2] if line[-2:] == b"\r\n" else line[:-1], years)
        except Wrong as fault:
            tell(f"{name}({number}) {fault}: {ascii(text_of(line[:80].rstrip()))[1:-1]}")

# --- Unified2

def colon_text(data):
    """An address of version 6, by RFC 5952, sections 4.1 to 4.3."""
    groups = ":".join(f"{it:x}" for it in struct.unpack(">8H", data))
    runs = re.finditer(r"(?<![0-9a-f])0(?::0)+(?![0-9a-f])", groups)
    longest = max(runs, key=lambda it: len(it[0]), default=None)
    if longest is None:
        return groups
    return groups[:longest.start()].rstrip(":") + "::" + groups[longest.end():].lstrip(":")

def address_of(data):
    return ".".join(map(str, data)) if len(data) == 4 else colon_text(data)

def is_unbroken(link, data):
    """Whether a packet is read in these bytes, and is no fragment."""
    heads = packet_heads.heads_of(link, data)
    return bool(heads and heads.is_whole and not heads.fragment)

def is_record(kind, length, body):
    """Whether a body is whole, and of the length that its kind has."""
    if len(body) != length:
        return False
    if kind == PACKET:
        return length >= PACKET_HEAD.size and PACKET_HEAD.unpack_from(body)[6] == length - PACKET_HEAD.size
    return kind not in EVENTS or length == EVENTS[kind].size

def no_record(at):
    """What is told of the place at which no record begins."""
    return f"no whole Unified2 record at byte {at}"

def records_of(file):
    """The records of a file, each as its kind and body; Wrong, with its byte, at the first that isn't whole."""
    at = 0
    while head := file.read(8):
        kind, length = struct.unpack(">II", head) if len(head) == 8 else (0, LONGEST_BODY + 1)
        body = file.read(length) if length <= LONGEST_BODY else b""
        if not is_record(kind, length, body):
            raise Wrong(no_record(at))
        yield kind, body
        at += 8 + length

def alert_of_event(kind, body, packet, rules):
    """The alert of an event and its packet, which may lack; texts are those of the configuration."""
    fields = EVENTS[kind].unpack(body)
    second, micro, sid, gid, rev, place, priority = fields[2:9]
    source, target, sport, dport, protocol, _, _, blocked = fields[9:]
    ports = icmp = (None, None)
    # A fragment has 0 in the place of ports, or of type and code; without a packet that is read 0 and 0 may be those of one.
    if sport or dport or packet and is_unbroken(*packet):
        ports, icmp = (sport, dport), (sport, dport)
    sport, dport = ports if protocol in WITH_PORTS else (None, None)
    has_icmp = protocol in (ICMP, ICMP6) and icmp[0] is not None
    rule = rules.by_mark.get((gid, sid))
    return Alert(second * 10**6 + micro, blocked == 1, gid, sid, rev, rule.msg if rule else "", rules.class_text(place), place,
                 priority, protocol, address_of(source), sport, address_of(target), dport, icmp if has_icmp else None, packet)

def of_unified2(file, name, rules, tell):
    """The alerts of the records of a file, up to the first that isn't whole, of which `tell` hears."""
    held = fault = None
    try:
        for kind, body in records_of(file):
            if kind == PACKET and held and body[:12] == held[1][:12]:  # sensor, number and second of the event
                yield alert_of_event(*held, (PACKET_HEAD.unpack_from(body)[5], body[PACKET_HEAD.size:]), rules)
                held = None
            elif kind in EVENTS:
                if held:
                    yield alert_of_event(*held, None, rules)
                held = kind, body
    except Wrong as met:
        fault = met
    if held:
        yield alert_of_event(*held, None, rules)
    if fault:
        tell(f"{name}: {fault}")

# --- Files, and the words of a command

class Words(argparse.ArgumentParser):
    def error(self, message):
        sys.exit(f"{message}\n{self.usage}")

    def asked(self):
        """The words of the command, files and others in any order; after `--` all are files."""
        words = sys.argv[1:]
        end = words.index("--") if "--" in words else len(words)
        if any(map(NO_VALUE.fullmatch, words[:end])):  # argparse drops it
            self.error("-- is no value of an option")
        found = self.parse_intermixed_args(words[:end])
        found.files += words[end + 1:]
        return found

class Help(argparse.Action):
    def __call__(self, parser, words, values, option=None):
        print(parser.usage)
        sys.exit(0)

def parser_of(text):
    """What reads the words of a command, of which `text` is the help."""
    parser = Words(usage=scripts.as_called(text.strip()), add_help=False, allow_abbrev=False)
    parser.add_argument("-h", "--help", nargs=0, action=Help)
    parser.add_argument("files", nargs="*")
    return parser

def asked_words(text, more=()):
    """The words of the command: those that eve and report have alike, and more, each with what argparse should know of it."""
    parser = parser_of(text)
    parser.add_argument("-c", dest="conf")
    parser.add_argument("-S", dest="defined")
    parser.add_argument("--year", type=int)
    parser.add_argument("--capture")
    parser.add_argument("--lines", dest="form", action="store_const", const="lines")
    parser.add_argument("--unified2", dest="form", action="store_const", const="unified2")
    for word, known in more:
        parser.add_argument(word, **known)
    words = parser.asked()
    if words.year is not None and not 1970 <= words.year <= 9999:
        parser.error("--year is a year from 1970 on")
    if words.year is not None and words.capture is not None:
        parser.error("--year or --capture, not both")
    if words.defined is not None and "=" not in words.defined:
        parser.error("-S wants NAME=VALUE")
    return words

def text_of_word(word):
    """The text of a word of the command, whatever bytes it has."""
    return text_of(os.fsencode(word))

def first_date(name):
    """The date of the first record of a capture."""
    try:
        second = capture_records.first_moment(name) // 10**9
        return (datetime.datetime(1970, 1, 1) + datetime.timedelta(seconds=second)).date()
    except OSError as fault:
        sys.exit(f"cannot read {name}: {fault.strerror}")
    except (capture_records.Wrong, captures.Fault, OverflowError) as fault:
        sys.exit(f"{name} tells no year: {fault}")

class Input:
    """The alerts of the files that a command names, or of standard input, in their order.

    `rules` is what the configuration says, and `status` becomes 2 once a line or a record is none.
    """
    def __init__(self, words):
        self.words, self.status = words, 0
        self.known = first_date(words.capture) if words.capture is not None else None
        try:
            self.rules = rule_texts.read(words.conf, words.defined) if words.conf else rule_texts.Rules()
        except OSError as fault:
            sys.exit(f"cannot read {fault.filename}: {fault.strerror}")

    def tell(self, text):
        self.status = 2
        print(text, file=sys.stderr, flush=True)

    def alerts(self):
        for name in self.words.files or ["-"]:
            try:
                with standard_input() if name == "-" else open(name, "rb") as file:
                    yield from self.of_file(file, "standard input" if name == "-" else name)
            except OSError as fault:
                sys.exit(f"cannot read {name}: {fault.strerror}")

    def form_of(self, file):
        """By its first byte, where no word tells: that of a record is 0, since kinds are small numbers."""
        return self.words.form or ("unified2" if file.peek(1)[:1] == b"\0" else "lines")

    def of_file(self, file, name):
        if self.form_of(file) == "unified2":
            return of_unified2(file, name, self.rules, self.tell)
        return of_lines(file, name, self.years_of(name), self.tell)

    def years_of(self, name):
        """The dates of the lines of a file that begins."""
        def guessed(year):
            print(f"{name}: {year} is a guess, since lines have no year: --year N or --capture FILE tells it",
                  file=sys.stderr, flush=True)
        return Years(self.words.year, self.known, guessed)

def standard_input():
    if sys.stdin is None:
        sys.exit("cannot read standard input: it is closed")
    return contextlib.nullcontext(sys.stdin.buffer)

def run(main):
    """Runs a command; where who reads its output went away, it ends without a word."""
    if sys.stdout is None:
        sys.exit("cannot write: standard output is closed")
    try:
        try:
            status = main()
        except SystemExit as ended:
            status = ended.code
        sys.stdout.flush()
    except OSError as fault:
        os.dup2(os.open(os.devnull, os.O_WRONLY), sys.stdout.fileno())
        status = 1 if isinstance(fault, BrokenPipeError) else f"cannot write: {fault.strerror}"
    except KeyboardInterrupt:
        status = 130
    sys.exit(status)
