"""A rule with more and more of its parts, and runs that count what each lets through. Used by why and profile_rules."""
import re, subprocess
from collections import namedtuple

import rule_sets, rule_texts, scripts
from rule_faults import name_of

# What a step adds, as it is shown; the seven words of the header; and the options up to there.
Step = namedtuple("Step", "shown header options")
ALERT = re.compile(rb"\d\d/\d\d-\d\d:\d\d:\d\d\.\d{6}  \[\*\*\] \[(\d+):(\d+):")
COUNT = re.compile(rb"^([a-z]+): (\d+)$", re.M)
MODIFIERS = ("nocase", "rawbytes", "offset", "depth", "distance", "within", "fast_pattern")
OF_ITSELF = ("msg", "gid", "sid", "rev", "classtype", "priority", "reference", "metadata", "detection_filter",
             "stream_reassemble")
TESTS = ("isset", "isnotset")  # of flowbits; its other words are done once a rule matches
QUEUE = "config event_queue: max_queue 1024 log 1024"
EVENTS = re.compile(r"(?:event_filter|suppress)[ \t]|config[ \t]+event_queue")
ANY = "any any -> any any".split()

def settings_of(text):
    """The options of a rule by their names, the first of each; and the generator and number."""
    options = {}
    for option in rule_texts.options_of(text):
        options.setdefault(name_of(option), option.partition(":")[2].strip(" \t"))
    return options, (options.get("gid", "1"), options.get("sid", ""))

def flowbit(option):
    """The word and the name of a flowbits option; empty where it is another one."""
    if name_of(option) != "flowbits":
        return "", ""
    return [*(it.strip(" \t") for it in option.partition(":")[2].split(",")), ""][:2]

def is_condition(option):
    return name_of(option) not in OF_ITSELF and (name_of(option) != "flowbits" or flowbit(option)[0] in TESTS)

def groups_of(options):
    """The conditions in their order, each content with its modifiers."""
    groups, last = [], None
    for option in filter(is_condition, options):
        if name_of(option) in MODIFIERS and last is not None:
            last.append(option)
            continue
        groups.append([option])
        last = groups[-1] if name_of(option) == "content" else last
    return groups

def shown(group):
    return " ".join(f"{it};" for it in group)

def steps_of(text):
    """A rule with more and more of its parts, from any item on."""
    words = [text[begin:end] for begin, end in rule_texts.word_spans(text)]
    _, protocol, source, sport, direction, target, dport = words
    steps = [Step("any item", ["alert", "ip", *ANY], [])]
    if protocol != "ip":
        steps.append(Step(protocol, ["alert", protocol, *ANY], []))
    if (source, target) != ("any", "any"):
        steps.append(Step(f"from {source} {direction} {target}", ["alert", protocol, source, "any", direction, target, "any"],
                          []))
    if (sport, dport) != ("any", "any") and protocol in ("tcp", "udp"):
        steps.append(Step(f"ports {sport} {direction} {dport}", ["alert", *words[1:]], []))
    options = []
    for group in groups_of(rule_texts.options_of(text)):
        options = [*options, *group]
        steps.append(Step(shown(group), ["alert", *words[1:]], options))
    return steps

def carriers(lines, text):
    """The rules that may change what a rule sees: those that set bits which it tests, directly or not, or steer reassembly."""
    parts = [(it, rule_texts.options_of(it.text)) for it in lines if "flowbits" in it.text or "stream_reassemble" in it.text]
    wanted = {name for option in rule_texts.options_of(text) for word, name in [flowbit(option)] if word in TESTS}
    found, grown = set(), True
    while grown:
        grown = False
        for line, options in parts:
            bits = [flowbit(it) for it in options]
            changes = any(word not in TESTS and name in wanted for word, name in bits)
            if line[:2] not in found and (changes or any(name_of(it) == "stream_reassemble" for it in options)):
                found.add(line[:2])
                wanted |= {name for word, name in bits if word in TESTS}
                grown = True
    return found

def written(header, options, number):
    return f"{' '.join(header)} ({' '.join(it + ';' for it in options)} sid:{number}; gid:{OWN_GID};)"

OWN_GID = 4294967295  # of the rules that are put beside a rule

class Answer(namedtuple("Answer", "status alerts counts told")):
    def errors(self):
        return [it for it in self.told.splitlines() if it.startswith("ERROR")]

def run(folder, texts, capture, words):
    """A run over a capture with these lines: its status, the alerts by generator and number, the counts, and what it told."""
    rule_sets.write(f"{folder}/run", map(rule_sets.in_copy, texts))
    command = [scripts.program(), "--skip-refused", "--stats", *words, "-c", f"{folder}/run", "-r", capture]
    alerts = {}
    with open(f"{folder}/told", "wb") as told, subprocess.Popen(command, stdout=subprocess.PIPE, stderr=told) as child:
        for line in child.stdout:
            if found := ALERT.match(line):
                mark = found[1].decode(), found[2].decode()
                alerts[mark] = alerts.get(mark, 0) + 1
    with open(f"{folder}/told", "rb") as file:
        told = file.read()
    counts = {name.decode(): int(number) for name, number in COUNT.findall(told)}
    return Answer(child.returncode, alerts, counts, told.decode("utf-8", "surrogateescape").replace(f"{folder}/run", "CONF"))

def fast_pattern(options):
    """The option with the content that is searched for first, and how many bytes of it; None where there is none."""
    best = marked = None
    for group in groups_of(options):
        if name_of(group[0]) != "content" or re.match(r'content[ \t]*:[ \t]*!', group[0]):
            continue
        size = size_of(group[0])
        mark = next((it for it in group if name_of(it) == "fast_pattern"), None)
        if mark is not None and marked is None:
            part = mark.partition(":")[2].split(",")
            marked = group[0], int(part[1]) if len(part) == 2 else size
        if best is None or size > best[1]:
            best = group[0], size
    return marked or best

def size_of(content):
    """How many bytes a content has."""
    found = re.search(r'"(.*)"', content, re.S)
    size, at, text = 0, 0, (found[1] if found else "").encode("utf-8", "surrogateescape")
    while at < len(text):
        if text[at:at + 1] == b"|":
            end = text.find(b"|", at + 1)
            size += len(re.sub(rb"[ \t]", b"", text[at + 1:end])) // 2
            at = end + 1 if end > 0 else len(text)
            continue
        at += 2 if text[at:at + 1] == b"\\" else 1
        size += 1
    return size
