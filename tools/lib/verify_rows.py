"""The rows of the manual's tables, and which of them cases have reached. Used by verify.

A row of rules is reached by a rule that has it, and hit where such a rule alerts; any other row is reached by a case with it.
"""
import re
from collections import Counter

from verify_options import options_of, sid_of
from verify_promises import counts_of

NAME = r"[a-z]\w*\Z"  # of byte_extract, in the place of a number
# Rows of options: the option, and forms of its value; each form is a name and an expression.
OPTIONS = {
    "content": [("not", "!"), ("hex digits", r'.*\|'), ("a backslash", r".*\\"), ("one byte", r'!?"[^|\\]"\Z'), ("text", r'"')],
    "nocase": [], "rawbytes": [],
    "offset": [("a number", r"\d"), ("negative", "-"), ("a name", NAME)],
    "depth": [("a number", r"\d"), ("a name", NAME)],
    "distance": [("a number", r"\d"), ("negative", "-"), ("a name", NAME)],
    "within": [("a number", r"\d"), ("a name", NAME)],
    "fast_pattern": [("alone", r"\Z"), ("only", "only"), ("a part", r"\d")],
    "isdataat": [("not", "!"), ("relative", ".*relative"), ("rawbytes", ".*rawbytes"), ("a name", r"!?[a-z]\w*")],
    "pcre": [("not", "!"), *((f"flag {it}", rf".*/[a-zA-Z]*{it}[a-zA-Z]*\"\Z") for it in "ismxR"), ("without flags", r'.*/"\Z')],
    "byte_test": [*((f"op {it}", rf"\d+,{re.escape(it)},") for it in ("<", ">", "=", "<=", ">=", "&", "!")),
                  ("op with !", r"\d+,![<>=&]"), ("a name as value", r"[^,]*,[^,]*,[a-z]"), ("a name as offset", r"[^,]*,[^,]*,[^,]*,[a-z]")],
    "byte_jump": [("multiplier", ".*multiplier"), ("align", ".*align"), ("from_beginning", ".*from_beginning"),
                  ("post_offset", ".*post_offset"), ("a name as offset", r"[^,]*,[a-z]")],
    "byte_extract": [("multiplier", ".*multiplier"), ("align 2", ".*align 2"), ("align 4", ".*align 4"), ("a name as offset", r"\d+,[a-z]")],
    "dsize": [("n", r"\d+\Z"), ("<n", "<"), (">n", ">"), ("a<>b", r"\d+<>")],
    "ttl": [("n", r"\d+\Z"), *((f"{it}n", rf"{it}\d") for it in ("=", "<", ">", "<=", ">=")), ("a-b", r"\d+-\d"), ("-b", "-"), ("a-", r"\d+-\Z")],
    "tos": [("n", r"\d"), ("!n", "!")], "id": [],
    "ip_proto": [("n", r"\d"), ("!n", "!"), ("<n", "<"), (">n", ">"), *((it, it) for it in ("icmp", "igmp", "tcp", "udp"))],
    "sameip": [],
    "fragbits": [("exactly", r"[MDR]+\Z"), *((f"sign {it}", rf".*{re.escape(it)}") for it in "+*!")],
    "fragoffset": [("n", r"\d"), ("!n", "!"), ("<n", "<"), (">n", ">")],
    "flags": [("exactly", r"[A-Z]+\Z"), ("0", r"0\Z"), ("a mask", ".*,"), *((f"sign {it}", rf".*{re.escape(it)}") for it in "+*!")],
    "seq": [], "ack": [], "window": [("n", r"\d"), ("!n", "!")],
    "itype": [("n", r"\d"), ("<n", "<"), (">n", ">")], "icode": [("n", r"\d"), ("<n", "<"), (">n", ">")],
    "icmp_id": [], "icmp_seq": [],
    "flow": [(it, rf"(?:.*,)?{it}(?:,|\Z)") for it in ("established", "not_established", "stateless", "to_server", "from_client",
             "to_client", "from_server", "only_stream", "no_stream", "only_frag", "no_frag")],
    "flowbits": [(it, it) for it in ("set,", "unset,", "toggle,", "isset,", "isnotset,", "noalert")],
    "stream_size": [*((it, it) for it in ("client", "server", "both", "either")),
                    *((f"op {it}", rf"\w+,{it},") for it in ("<", ">", "=", "!=", "<=", ">="))],
    "stream_reassemble": [*((it, it) for it in ("enable,client", "enable,server", "enable,both", "disable,client", "disable,server",
                            "disable,both")), ("noalert", ".*noalert")],
    "detection_filter": [("by_src", ".*by_src"), ("by_dst", ".*by_dst")],
    "msg": [], "gid": [], "rev": [], "classtype": [], "priority": [], "reference": [], "metadata": [],
}
for _name in ("byte_test", "byte_jump", "byte_extract"):
    OPTIONS[_name] += [(it, rf".*,\s*{it}(?:,|\Z)") for it in ("relative", "big", "little", "string", "dec", "hex", "oct")]
# Rows of headers.
HEADERS = [("pass", r"pass "), *((it, rf"\w+ {it} ") for it in ("tcp", "udp", "icmp", "ip")), ("->", ".*->"), ("<>", ".*<>"),
           ("an address", r"\w+ \w+ [0-9a-f.:]+ "), ("a network", r"\w+ \w+ [0-9a-f.:]+/\d+ "), ("a list", r"\w+ \w+ \["), ("not", r"\w+ \w+ !"),
           ("a variable", r"\w+ \w+ \$"), ("a port", r"\w+ \w+ \S+ \d+ "), ("ports from, to", r"\w+ \w+ \S+ (?:\d+:|:\d+) "),
           ("a range of ports", r"\w+ \w+ \S+ \d+:\d+ "), ("a list of ports", r"\w+ \w+ \S+ \["), ("not these ports", r"\w+ \w+ \S+ !"),
           ("a variable of ports", r"\w+ \w+ \S+ \$")]
FRAGMENTS = ("first", "last", "bsd", "bsd-right", "linux", "windows", "solaris")
STREAMS = ("first", "last", "bsd", "linux", "windows", "solaris", "old-linux", "hpux", "hpux10", "irix", "macos", "vista", "win2003")
# Rows of the other lines of a configuration, by the group.
LINES = {
    "directives": [(it, it) for it in ("var ", "ipvar ", "portvar ", "config classification", "config checksum_mode", "config event_queue",
                   "config detection", "output ", "preprocessor frag3_global", "preprocessor frag3_engine", "preprocessor stream5_global",
                   "preprocessor stream5_tcp", "preprocessor stream5_udp", "event_filter ", "suppress ")],
    "checksums": [(it, rf"config checksum_mode:.*\b{it}\b") for it in ("all", "none", "noip", "notcp", "noudp", "noicmp")],
    "queue": [(it, rf"config event_queue:.*{it}") for it in ("max_queue", r"\blog", "priority", "content_length")]
             + [("no_stream_inserts", "config detection:.*no_stream_inserts")],
    "fragment policies": [(it, rf"preprocessor frag3_engine:.*policy {it}(?:,|\Z)") for it in FRAGMENTS],
    "fragment settings": [(it, rf"preprocessor frag3_\w+:.*{it}") for it in ("timeout", "min_ttl", "bind_to", "max_frags")],
    "stream policies": [(it, rf"preprocessor stream5_tcp:.*policy {it}(?:,|\Z)") for it in STREAMS],
    "stream settings": [(it, rf"preprocessor stream5_tcp:.*{it}") for it in ("timeout", "bind_to", "require_3whs", "ports client",
                        "ports server", "ports both", "all", "none", "max_queued_bytes", "max_queued_segs")],
    "sessions": [(it, rf"preprocessor stream5_global:.*{it}") for it in ("track_tcp no", "track_udp no", r"max_tcp [123]\b", r"max_udp [123]\b")],
    "event filters": [(f"{kind}, {by}", rf"event_filter.*type {kind}, track {by}") for kind in ("limit", "threshold", "both")
                      for by in ("by_src", "by_dst")]
                     + [(f"gen_id {g}, sig_id {s}", rf"event_filter gen_id {g}, sig_id {s},") for g, s in ((0, 0), (1, 0), (2, 0))]
                     + [("of a rule", r"event_filter gen_id \d+, sig_id [1-9]")],
    "suppress": [("all", r"suppress gen_id \d+, sig_id \d+\Z"), ("by_src", "suppress.*by_src"), ("by_dst", "suppress.*by_dst"),
                 ("a generator", r"suppress gen_id \d+, sig_id 0")],
}
WORDS = ("-k", "-S", "-q", "--flush-point", "--host-table")
COUNTS = ("short", "other", "checksum", "malformed", "fragments", "rebuilt", "flows", "items", "hits", "alerts", "tries")
HOSTS = {"fragment policies of a host table": FRAGMENTS, "stream policies of a host table": STREAMS}
COMPILED = {name: [(form, re.compile(text.encode(), re.S)) for form, text in forms] for name, forms in OPTIONS.items()}
COMPILED_HEADERS = [(form, re.compile(text.encode())) for form, text in HEADERS]
COMPILED_LINES = [((group, form), re.compile(text.encode())) for group, forms in LINES.items() for form, text in forms]
MARK = re.compile(rb"\S+  \[\*\*\] \[(\d+):(\d+):", re.M)

def rule_rows(line):
    """The rows of a rule, each a group and a name."""
    rows = {("headers", form) for form, text in COMPILED_HEADERS if text.match(line.partition(b" (")[0] + b" ")}
    for option in options_of(line):
        name, _, value = (it.strip(b" \t") for it in option.partition(b":"))
        forms = COMPILED.get(name.decode("latin-1"))
        if forms is not None:
            rows.add(("options", name.decode()))
            rows.update((name.decode(), form) for form, text in forms if text.match(value))
    return rows

def all_rules():
    yield from (("headers", form) for form, _ in HEADERS)
    yield from (("options", name) for name in OPTIONS)
    yield from ((name, form) for name, forms in OPTIONS.items() for form, _ in forms)

def all_others():
    yield from (row for row, _ in COMPILED_LINES)
    yield from (("words", it) for it in WORDS)
    yield from (("counts", it) for it in COUNTS)
    yield from ((group, it) for group, names in HOSTS.items() for it in names)

class Reached:
    """How many rules had each row, how many of these alerted, and how many cases had each of the other rows."""
    def __init__(self):
        self.cases, self.rules, self.hit_rules = 0, 0, 0
        self.made, self.hit, self.others = Counter(), Counter(), Counter()

    def add(self, case, bench):
        end = bench.base(case)
        self.cases += 1
        alerted = {(int(gid), int(sid)) for gid, sid in MARK.findall(end.alerts)}
        for line in case.lines:
            sid = sid_of(line)
            if sid is None:
                self.others.update(row for row, text in COMPILED_LINES if text.match(line))
                continue
            rows, has_alerted = rule_rows(line), (sid_of(line, b"gid") or 1, sid) in alerted
            self.rules += 1
            self.hit_rules += has_alerted
            self.made.update(rows)
            self.hit.update(rows if has_alerted else ())
        words = [*case.words, *(["--host-table"] if case.hosts else [])]
        self.others.update(("words", it) for it in WORDS if it in words)
        self.others.update(("counts", name.decode()) for name, count in counts_of(end.errors)[0].items() if count)
        for line in case.hosts or ():
            for group, policy in zip(HOSTS, line.split()[1:3]):
                self.others[group, policy.decode("latin-1")] += 1

    def join(self, other):
        self.cases, self.rules, self.hit_rules = self.cases + other.cases, self.rules + other.rules, self.hit_rules + other.hit_rules
        for mine, more in (self.made, other.made), (self.hit, other.hit), (self.others, other.others):
            mine.update(more)

    def tell(self, in_full):
        rules, others = list(all_rules()), list(all_others())
        print(f"{self.rules:,} rules, {self.hit_rules:,} of which alerted")
        if in_full:
            for row in rules:
                print(f"{row[0]:18} {row[1]:20} {self.made[row]:9,} rules {self.hit[row]:9,} alerted")
            for row in others:
                print(f"{row[0]:34} {row[1]:28} {self.others[row]:9,} cases")
        lacking = [it for it in rules if not self.hit[it]] + [it for it in others if not self.others[it]]
        count = len(rules) + len(others)
        print(f"{count - len(lacking)} of {count} rows of the manual's tables reached", end="")
        print("; not: " + "; ".join(": ".join(it) for it in lacking) if lacking else "")
