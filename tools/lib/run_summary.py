"""What inspect says of the results in a folder of runs: counts of alerts, and what was not read, and why."""
import json, os, re
from collections import Counter

import rule_texts
from captures import shown
from run_folder import bytes_text, ended, left_of, read, size_of

MOST_ROWS, MOST_NAMES = 20, 10
COUNT = re.compile(r"([a-z]+): (\d+)\Z")
FRONT = "read up to there: it was cut, is damaged, or is still being written"
# What messages of the detector and of join mean, each with what is said of their captures.
CAUSES = [
    (re.compile(r"ERROR: capture is truncated at byte|ERROR: capture has a (?:bad block|record)|join: .* (?:is truncated|has a record)"
                r"|join: .* can't be unpacked|join: .* isn't converted"), FRONT),
    (re.compile(r"ERROR: capture is not a pcap file|join: .* is not a pcap file"), "no capture"),
    (re.compile(r"ERROR: capture has link type (\d+)"), "its packets have link type {}, which isn't read"),
    (re.compile(r"join: .* has another byte order"), "a file of a series has another form, and was left out"),
    (re.compile(r"ERROR: (.*)"), "{}"),
]
LIMITS = {"max_tcp": 262144, "max_udp": 131072, "max_frags": 8192}  # docs/manual/configuration.md

def limits_of(plan):
    """How many flows and fragments the configuration holds at a time."""
    limits = dict(LIMITS)
    for path in plan["files"]:
        if path == plan["program"]:
            continue
        for _, text in rule_texts.joined_lines(path):
            if re.match(r"preprocessor\s+(?:stream5|frag3)_global", text):
                limits.update((name, int(value)) for name, value in re.findall(r"(max_tcp|max_udp|max_frags)\s+(\d+)", text))
    return min(limits["max_tcp"], limits["max_udp"]), limits["max_frags"]

class Capture:
    """What was said of a capture."""
    def __init__(self, name):
        self.name, self.counts, self.causes, self.words = name, {}, [], []

    def add(self, message):
        if found := COUNT.match(message):
            self.counts[found[1]] = int(found[2])
            return
        for pattern, meaning in CAUSES:
            if met := pattern.match(message):
                self.causes.append(meaning.format(*met.groups()))
                return self.words.append(message)

    def doubts(self, most_flows, most_fragments):
        """What may be wrong with what was read."""
        counts = Counter(self.counts)
        records = counts["records"]
        if records and 2 * counts["checksum"] >= records:
            yield "most packets have a wrong checksum, as on the host that sent them: add -k none"
        if records and 10 * counts["short"] >= records:
            yield "many packets were cut by a snap length, and passed over"
        if records and 2 * counts["other"] >= records:
            yield "most records hold no packet that is read: other protocols, tags or tunnels"
        if counts["flows"] > most_flows:
            yield "more flows than are held at a time: some may have ended early (max_tcp, max_udp)"
        if counts["fragments"] > most_fragments:
            yield "more fragments than are held at a time: some may be lost (max_frags)"

def said(folder):
    """The captures of which something was said."""
    last = None
    with open(folder.of("errors"), "rb") as file:
        for line in file:
            name, _, message = line.rstrip(b"\n").partition(b"\t")
            if last is None or last.name != name:
                if last:
                    yield last
                last = Capture(name)
            last.add(message.decode(errors="replace"))
    if last:
        yield last

def without_result(folder):
    """Of each capture without a result, why."""
    for number, line, _ in left_of(folder):
        try:
            fields = read(f"{folder.place(number)}.failed").decode(errors="replace").rstrip("\n").split("\t")
            why = "no result: " + re.sub(r"\Acannot read .*: ", "it can't be read: ", fields[4])
        except (OSError, IndexError):
            why = "no result yet"
        yield why, line.replace(b"\t", b", ")

def many(count, name):
    return f"{count:,} {name}{'s' * (count != 1)}"

def counted(title, counts):
    rows = sorted(counts.items(), key=lambda it: (-it[1], it[0]))
    if title == "By day":
        rows.sort()
    width = max((len(f"{it:,}") for it in counts.values()), default=1)
    lines = [f"  {count:>{width},}  {label}" for label, count in rows[:MOST_ROWS]]
    if len(rows) > MOST_ROWS:
        lines.append(f"  {sum(count for _, count in rows[MOST_ROWS:]):>{width},}  {len(rows) - MOST_ROWS} others")
    return ["", f"{title}:", *lines] if rows else []

def alert_counts(folder):
    rules, sources, targets, days = Counter(), Counter(), Counter(), Counter()
    with open(folder.of("eve.json"), "rb") as file:
        for line in file:
            it = json.loads(line)
            alert = it["alert"]
            rules[shown(f"[{alert['gid']}:{alert['signature_id']}:{alert['rev']}] {alert['signature']}")] += 1
            sources[it["src_ip"]] += 1
            targets[it["dest_ip"]] += 1
            days[it["timestamp"][:10]] += 1
    return {"By rule": rules, "By source": sources, "By target": targets, "By day": days}

def told(causes):
    """Of each cause the captures, the first of them by name."""
    lines = []
    for cause, names in sorted(causes.items(), key=lambda it: it[0]):
        lines.append(f"  {cause}: {many(len(names), 'capture')}")
        lines += [f"    {it}" for it in names[:MOST_NAMES]]
        if len(names) > MOST_NAMES:
            lines.append(f"    and {len(names) - MOST_NAMES} more")
    return lines

def text(folder, found, name):
    """The summary."""
    causes, totals, limits = {}, Counter(), limits_of(folder.plan)
    for why, names in without_result(folder):
        causes.setdefault(why, []).append(shown(names))
    for capture in said(folder):
        totals.update(capture.counts)
        for cause in dict.fromkeys([*capture.causes, *capture.doubts(*limits)]):
            causes.setdefault(cause, []).append(shown(capture.name))
    done, _ = ended(folder)
    sizes = [size_of(line) for _, line in folder.captures()]
    counts = alert_counts(folder)
    lines = [f"{many(sum(counts['By rule'].values()), 'alert')} in {many(totals['records'], 'record')} of "
             f"{len(done):,} of {many(len(sizes), 'capture')}, {bytes_text(sum(sizes))}"]
    if found.others:
        lines.append(f"{many(found.others, 'other file')} of the folders {'is' if found.others == 1 else 'are'} no capture"
                     + "s" * (found.others != 1))
    trouble = told(causes) + [f"  {it}" for it in found.unread]
    lines += ["", "Not read, or not wholly:", *trouble] if trouble else ["Every capture was read to its end."]
    for title, values in counts.items():
        lines += counted(title, values)
    return "\n".join([*lines, "", f"More: {shown(os.path.join(name, 'report.html'))}"]) + "\n"
