"""What the theorem promises, each promise as a check from outside. Used by verify.

A check takes a case, a bench and a source of random numbers, and gives for each comparison that it makes None, or a text that
says what differs. Each draws what it needs by the case's size, so that it fits a case that was reduced. What is promised:
docs/THEOREM.md, and the manual's captures, pcapng, unified2, messages, command-words.
"""
import re, time

import verify_captures as captures, verify_generated as generated
from verify_bench import BAD_CAPTURE, DONE, PIPE_BYTES, WRITE_FAULT, difference, is_nano, message
from verify_events import tells_the_same, shows_records
from verify_options import CONTENT, is_with, options_of, rule_of, sid_of

COUNTS = 12
LANES = (1, 2, 3, 7, 64)
COUNT_LINE = re.compile(rb"(\w+): (\d+)")
ARP = bytes.fromhex("ffffffffffff" "020000000001" "0806" "0001080006040001") + bytes(20)
DISCOVERY = bytes.fromhex("0180c200000e" "020000000001" "88cc" "0207040200000000010403020000")
COOKED_ARP = bytes.fromhex("0000" "0001" "0006" "0200000000010000" "0806") + ARP[14:]
OUTSIDE = [  # rules that --skip-refused skips, as each names an option or an action outside the profile
    b'alert tcp any any -> any any (msg:"t"; content:"GET"; http_uri; sid:%d;)',
    b'alert ip any any -> any any (uricontent:"/a"; sid:%d;)',
    b'alert udp any any <> any any (file_data; content:"a"; sid:%d; rev:3;)',
    b'alert ip any any -> any any (content:"a"; threshold:type limit, track by_src, count 1, seconds 60; sid:%d;)',
    b'drop ip any any -> any any (content:"a"; sid:%d;)',
    b'reject tcp any any -> any 80 (sid:%d;)',
    b'alert ip any any -> any any (content:"a"; tag:session,10,packets; sid:%d;)',
    b'alert ip any any -> any any (flowbits:setx,a; sid:%d;)',
]
UNMADE = [  # and those whose expression is refused, if no rule before them has their sid
    b'alert ip any any -> any any (pcre:"/a(?=b)/"; sid:4294967295;)',
    b'alert ip any any -> any any (content:"a"; pcre:"/(a)b\\1/"; sid:4294967295;)',
    b'pass ip any any -> any any (pcre:"/[^/"; sid:4294967295;)',
]

def counts_of(errors):
    """The counts at the end of messages, and what comes before them."""
    lines = errors.splitlines(True)
    counts = {it[1]: int(it[2]) for it in map(COUNT_LINE.fullmatch, map(bytes.rstrip, lines[-COUNTS:])) if it}
    return (counts, b"".join(lines[:-COUNTS])) if len(counts) == COUNTS else ({}, errors)

def without(errors, *names):
    """Messages without these counts."""
    return b"".join(it for it in errors.splitlines(True) if it.partition(b": ")[0] not in names)

def place(rng, most):
    """A number up to a limit, often one of those where something is done in batches."""
    near = [it for it in (1, 255, 256, 257, 512, most - 1, most) if 0 < it <= most]
    return rng.choice(near) if rng.random() < 0.4 else rng.randint(1, most)

# --- The promises

def accepted(case, bench, rng):
    """The run ends with status 0; its counts are those of the records and of the lines."""
    end = bench.base(case)
    if end.status != DONE:
        yield f"status {end.status}: {end.errors[-200:]!r}"
        return
    counts, _ = counts_of(end.errors)
    have, want = (counts.get(b"records"), counts.get(b"alerts")), (len(case.records), end.alerts.count(b"\n"))
    yield None if have == want else f"records and alerts counted: {have}, not {want}"
    yield difference(bench.lines(case), end._replace(errors=counts_of(end.errors)[1]))

def lanes(case, bench, rng):
    """Each number of lanes gives the same lines, messages, counts and status."""
    base = bench.base(case)
    for number in LANES:
        yield difference(bench.run([*bench.conf(case), *bench.capture(case), "--stats", "--lanes", str(number)]), base)

def first_records(case, bench, rng):
    """-n N gives what the capture gives that is cut after record N, whatever follows."""
    if not case.records:
        return
    for _ in range(2):
        count = place(rng, len(case.records) + 1)
        cut = bench.run([*bench.conf(case), *bench.capture(case, f"first{count}", case.records[:count]), "--stats"])
        words = [*bench.conf(case), "-n", str(count), "--stats"]
        yield difference(bench.run([*words, *bench.capture(case)]), cut)
        if count <= len(case.records):
            spoiled = captures.pcap(case.records[:count], is_nano=is_nano(case)) + rng.randbytes(rng.randint(1, 40))
            yield difference(bench.run([*words, "-r", bench.write(f"spoiled{count}", spoiled)]), cut)

def moment_text(moment):
    """How a line begins that has this moment."""
    return time.strftime("%m/%d-%H:%M:%S", time.gmtime(moment // 10**9)).encode() + b".%06d" % (moment % 10**9 // 1000)

def as_a_beginning(lines, whole, last):
    """What is wrong with the lines of first records: but for those of flows that end with them, they begin the whole's."""
    have, all_lines = lines.splitlines(True), whole.splitlines(True)
    same = next((at for at, pair in enumerate(zip(have, all_lines)) if pair[0] != pair[1]), min(len(have), len(all_lines)))
    late = [it for it in have[same:] if not it.startswith(moment_text(last) + b" ")]
    return f"a line that the whole capture doesn't have, and that isn't of its last record: {late[0][:160]!r}" if late else None

def cut_anywhere(case, bench, rng):
    """A capture cut at a byte gives the lines of its whole records, with status 2 and the byte of the one that is cut."""
    is_blocks = rng.random() < 0.5
    if is_blocks:
        data, ends, of_records = captures.pcapng(case.records, rng)
    else:
        data, of_records = captures.pcap(case.records, is_nano=is_nano(case)), [24]
        for it in case.records:
            of_records.append(of_records[-1] + 16 + len(it.data))
        ends, of_records = of_records, of_records[1:]
    near = [it + by for it in (0, 24, *rng.sample(ends, min(len(ends), 2))) for by in (-1, 0, 1)]
    at = rng.choice(near) if rng.random() < 0.5 else rng.randint(0, len(data))
    at = min(max(at, 0), len(data))
    whole = sum(it <= at for it in of_records)
    begin = max([0, *(it for it in ends if it <= at)])
    cut = bench.run([*bench.conf(case), "-r", bench.write("cut", data[:at]), "--stats"])
    first = bench.run([*bench.conf(case), *bench.capture(case, "first", case.records[:whole]), "--stats"])
    counts, said = counts_of(first.errors)
    if at < 24 or begin < at:
        said += b"ERROR: capture is truncated at byte %d\n" % (begin if at >= 24 else 0)
        first = first._replace(status=BAD_CAPTURE, errors=said + first.errors[len(counts_of(first.errors)[1]):])
    yield difference(cut, first)
    if whole:
        yield as_a_beginning(cut.alerts, bench.base(case).alerts, case.records[whole - 1].moment)

def forms(case, bench, rng):
    """The same packets in each form of a file: either byte order and unit of time, blocks, sections, interfaces."""
    base, made = bench.base(case), []
    for order in "<>":
        for nano in (False, True) if not is_nano(case) else (True,):
            made.append(captures.pcap(case.records, order, nano, rng.random() < 0.3, rng.choice((0, 65535, 262144))))
    made += [captures.pcapng(case.records, rng)[0] for _ in range(3)]
    for number, data in enumerate(made, 1):
        yield difference(bench.run([*bench.conf(case), "-r", bench.write(f"form{number}", data), "--stats"]), base)

def other_link(data, kind, to):
    """A frame of a packet with another link header: its Ethernet type is `kind`."""
    packet = data[14:]
    if to == captures.RAW:
        return packet
    if to == captures.COOKED:
        return b"\0\0\0\1\0\6\2\0\0\0\0\1\0\0" + kind + packet
    return data[:12] + b"\x81\0\0\5" * to + kind + packet

def holds_a_packet(it):
    """Whether a record is a whole frame of Ethernet whose type and first byte name one version of IP."""
    version = {b"\x08\0": 4, b"\x86\xdd": 6}.get(it.data[12:14])
    return it.link == captures.ETHERNET and it.wire == len(it.data) > 14 and it.data[14] >> 4 == version

def links(case, bench, rng):
    """The same packets over Ethernet with one and two tags, over the cooked link of Linux, and without a link header."""
    plain = [it for it in case.records if holds_a_packet(it)]
    if not plain:
        return
    base = bench.run([*bench.conf(case), *bench.capture(case, "link0", plain), "--stats"])
    for to, link in (1, 1), (2, 1), (captures.RAW, captures.RAW), (captures.COOKED, captures.COOKED):
        made = [captures.record(it.moment, link, other_link(it.data, it.data[12:14], to)) for it in plain]
        yield difference(bench.run([*bench.conf(case), *bench.capture(case, f"link{to}", made), "--stats"]), base)

def unified2(case, bench, rng):
    """Unified2 records tell the events that the lines tell, and --read-unified2 shows each beginning of them."""
    base = bench.base(case)
    end = bench.run([*bench.conf(case), *bench.capture(case), "--stats", "--unified2"])
    yield difference(end._replace(alerts=b""), base._replace(alerts=b""))
    yield tells_the_same(base.alerts, end.alerts, case)
    yield from shows_records(end.alerts, bench, rng)

def skipped(case, bench, rng):
    """A rule that is skipped is as if it were left out."""
    lines, plain, sids = list(case.lines), list(case.lines), [sid_of(it) for it in case.lines if sid_of(it)]
    for _ in range(rng.randint(1, 3)):
        at, rule = rng.randint(0, len(lines)), rng.choice(OUTSIDE + UNMADE)
        lines.insert(at, rule % rng.choice([*sids, 4294967294]) if rule in OUTSIDE else rule)
        plain.insert(at, b"")
    words = [*bench.capture(case), "--stats", *(["--skip-refused"] if "--skip-refused" not in case.words else [])]
    left_out = bench.run([*bench.conf(case, "left-out", plain), *words])
    end = bench.run([*bench.conf(case, "with-refused", lines), *words])
    told = re.compile(rb"WARNING: with-refused\((\d+)\) (?:outside this profile|pattern is refused)\n")
    numbers = [int(it) for it in told.findall(end.errors)]
    wanted = [] if "-q" in case.words else [at for at, pair in enumerate(zip(lines, plain), 1) if pair[0] != pair[1]]
    yield None if numbers == wanted else f"warnings of the lines {numbers}, not {wanted}"
    yield difference(end._replace(errors=told.sub(b"", end.errors).replace(b"with-refused(", b"left-out(")), left_out)

def write_faults(case, bench, rng):
    """Where lines can't be written, those that were are a beginning, and the status says so; messages may be lost alone."""
    base, words = bench.lines(case), [*bench.conf(case), *bench.capture(case)]
    size = len(base.alerts)
    unwritten = base._replace(status=WRITE_FAULT, errors=base.errors + b"ERROR: cannot write\n")
    lost = unwritten if size else base
    yield difference(bench.to_device(words), lost._replace(alerts=b""))
    room = rng.randint(0, size + 1)
    yield difference(bench.to_small_file(words, room), (lost if room < size else base)._replace(alerts=base.alerts[:room]))
    taken = rng.choice((0, 1, rng.randint(0, size)))
    end = bench.to_reader(words, taken)
    may_pass = size <= taken + PIPE_BYTES  # the rest may be in the pipe before its reader leaves
    passed = may_pass and end.status == DONE
    yield difference(end, (base if passed else lost)._replace(alerts=base.alerts[:taken]))
    end = bench.to_full_pipe(words)
    wanted = lost if size > PIPE_BYTES else base
    yield difference(end, wanted._replace(alerts=base.alerts[:len(end.alerts)] if size > PIPE_BYTES else base.alerts))

def no_packets(link, rng):
    """The bytes of records that hold no packet, for a link."""
    some = {captures.ETHERNET: [ARP, DISCOVERY, ARP[:13], ARP[:14] + b"\x45"], captures.COOKED: [COOKED_ARP, COOKED_ARP[:15]],
            captures.RAW: [b"\x10", b"\x00" * 60]}
    return rng.choice([b"", *some.get(link, [])])

def between(case, bench, rng):
    """Records that are no packets change nothing, but the time of the lines at the capture's end."""
    if not case.records:
        return
    link, base, made = case.records[0].link, bench.base(case), []
    for at, it in enumerate(case.records):
        made.append(it)
        if rng.random() < 0.2:
            moment = it.moment if at + 1 == len(case.records) else rng.choice((it.moment, 0, rng.randrange(2**32) * 10**9))
            made.append(captures.record(moment, link, no_packets(link, rng)))
    made[:0] = [captures.record(case.records[0].moment, link, no_packets(link, rng))] * rng.randint(0, 2)
    names = (b"records", b"short", b"other", b"malformed")
    end = bench.run([*bench.conf(case), *bench.capture(case, "between", made), "--stats"])
    yield difference(end._replace(errors=without(end.errors, *names)), base._replace(errors=without(base.errors, *names)))
    if any(b"event_filter" in it or b"detection_filter" in it for it in case.lines):
        return  # an interval may end by the later moment, so that another line is kept
    last = case.records[-1].moment
    later = min(last + rng.choice((1, 10**6, 10**9, 10**14)) * 1000, 2**32 * 10**9 - 1000)
    at_end = [*case.records, captures.record(later, link, no_packets(link, rng))]
    end = bench.run([*bench.conf(case), *bench.capture(case, "at-the-end", at_end), "--stats"])
    yield same_but_the_end(end.alerts, base.alerts, moment_text(last), moment_text(later))

def same_but_the_end(alerts, wanted, last, later):
    """What differs of lines, of which those at the end may have a later moment in the place of that of the last record."""
    have, want = alerts.splitlines(True), wanted.splitlines(True)
    at = next((at for at, pair in enumerate(zip(have, want)) if pair[0] != pair[1]), min(len(have), len(want)))
    moved = [later + it[len(last):] if it.startswith(last) else it for it in want[at:]]
    return None if have[at:] == moved else f"lines {message(b''.join(have[at:]), b''.join(moved))}"

def from_a_pipe(case, bench, rng):
    """A classic capture from a pipe gives what the file gives."""
    data = captures.pcap(case.records, is_nano=is_nano(case))
    bench.write("capture", data)
    yield difference(bench.run([*bench.conf(case), "-r", "/dev/stdin", "--stats"], data), bench.base(case))

def words_anyhow(case, bench, rng):
    """The words in any order and form, with those that change nothing."""
    words, parts = [*bench.conf(case), *bench.capture(case)], [["--stats"]]
    while words:
        count = 1 if len(words) == 1 or words[1].startswith("-") else 2
        part, words = words[:count], words[count:]
        if count == 2 and rng.random() < 0.6:
            part = [part[0] + ("=" if part[0].startswith("--") or rng.random() < 0.5 else "") + part[1]]
        parts.append(part)
    parts += rng.sample([["-U"], ["-A", "console"], ["-Aconsole"]], 1)
    rng.shuffle(parts)
    yield difference(bench.run([it for part in parts for it in part]), bench.base(case))

def searched(case, bench, rng):
    """Which content of a rule is searched for changes nothing but the count of tries."""
    lines, has_changed = [], False
    for line in case.lines:
        options = options_of(line)
        kept = [it for it in options if not re.match(rb"fast_pattern(?::\s*\d.*)?\Z", it, re.S)]
        contents = [at for at, it in enumerate(kept) if CONTENT.match(it)]
        if contents and not is_with(kept, b"fast_pattern"):
            if rng.random() < 0.7:
                kept.insert(rng.choice(contents) + 1, b"fast_pattern")
            line, has_changed = rule_of(line, kept), True
        lines.append(line)
    if has_changed:
        base = bench.base(case)
        end = bench.run([*bench.conf(case, "searched", lines), *bench.capture(case), "--stats"])
        end = end._replace(errors=without(end.errors, b"tries").replace(b"searched(", b"conf("))
        yield difference(end, base._replace(errors=without(base.errors, b"tries")))

def by_itself(case, bench, rng):
    """A rule by itself gives the lines that it gives among the others, where none of these acts on another."""
    rules = [it for it in case.lines if sid_of(it)]
    if any(it.startswith(b"pass") or is_with(options_of(it), b"flowbits", b"stream_reassemble") for it in rules):
        return
    others = [it for it in case.lines if not sid_of(it) and not it.startswith(b"config event_queue")]
    others.append(b"config event_queue: max_queue 1024 log 1024")
    together = bench.run([*bench.conf(case, "together", [*others, *rules]), *bench.capture(case)])
    for rule in rng.sample(rules, min(len(rules), 3)):
        alone = bench.run([*bench.conf(case, f"alone{sid_of(rule)}", [*others, rule]), *bench.capture(case)])
        mark = re.compile(rb"\S+  \[\*\*\] \[%d:%d:" % (sid_of(rule, b"gid") or 1, sid_of(rule)))
        wanted = b"".join(it for it in together.alerts.splitlines(True) if mark.match(it))
        yield difference(alone._replace(errors=b""), together._replace(alerts=wanted, errors=b""))

def generated_capture(case, bench, rng):
    """--generate N --seed S gives what the capture gives that is made of the packets of its definition."""
    count, seed = rng.choice((1, 255, 256, 257, rng.randint(1, 600))), rng.choice((0, 1, 2**31 - 1, rng.randrange(2**31)))
    words = bench.conf(case, "conf-generated", [*case.lines, *generated.RULES])
    made = captures.pcap(generated.records(seed, count))
    for more in [], ["--unified2"]:
        wanted = bench.run([*words, *more, "-r", bench.write("made", made), "--stats"])
        yield difference(bench.run([*words, *more, "--generate", str(count), "--seed", str(seed)]), wanted)

PROMISES = {
    "accepted": accepted, "lanes": lanes, "first records": first_records, "cut": cut_anywhere, "forms": forms, "links": links,
    "unified2": unified2, "skipped": skipped, "write faults": write_faults, "no packets between": between,
    "from a pipe": from_a_pipe, "words": words_anyhow, "search": searched, "by itself": by_itself,
    "generate": generated_capture,
}
