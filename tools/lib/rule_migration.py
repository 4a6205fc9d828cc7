"""What a rule of Snort 2.9 is written as here, where that means the same. Used by check_rules.

`migrated` rewrites only what the program refuses in any rule, or what means something else to it, by docs/manual/differences.md:

    threshold in a rule           an event_filter of the same type, track, count and seconds, for the rule's gid and sid
    drop, reject                  alert: no packet of a capture can be dropped
    tag, logto, session           nothing: they log more packets, and change no alert
    flowbits of several, a&b      one flowbits for each
    no blank before the bracket   a blank
    in a pcre                     \\<, \\>, [ and && in a class, \\e, \\012, \\x9; $ at the end, where nothing goes on after it
"""
import re
from collections import namedtuple

import rule_meanings, rule_sets, rule_texts
from rule_faults import mark_of, name_of

# The new text, the lines that follow it, what was changed, and what was left though it is one of these.
Migrated = namedtuple("Migrated", "text following changed left")
NUMBER = re.compile(r"[1-9]\d{0,9}", re.A)
KINDS, TRACKS = ("limit", "threshold", "both"), ("by_src", "by_dst")
LOGS = ("tag", "logto", "session")
FILTER = re.compile(r"event_filter[ \t]")
MOST_FILTERS = 1024

class Left(Exception):
    """Why something is left as it is."""

def threshold_of(value):
    """The settings of a threshold, where an event_filter has the same."""
    settings = {}
    for part in value.split(","):
        name, setting = [*part.split(None, 1), "", ""][:2]
        if name in settings:
            raise Left(f"{name} is given twice")
        settings[name] = setting.strip(" \t")
    if sorted(settings) != ["count", "seconds", "track", "type"]:
        raise Left("it wants type, track, count and seconds")
    for name, known in (("type", KINDS), ("track", TRACKS)):
        if settings[name] not in known:
            raise Left(f"no event_filter has {name} {settings[name]}")
    for name in ("count", "seconds"):
        if not NUMBER.fullmatch(settings[name]) or int(settings[name]) > 4294967295:
            raise Left(f"no event_filter has {name} {settings[name]}")
    return settings

def bits_of(value):
    """The forms of flowbits that mean the same as one with `a&b`."""
    parts = [it.strip(" \t") for it in value.split(",")]
    if len(parts) != 2 or parts[0] not in ("set", "unset", "toggle", "isset") or not re.fullmatch(r"[\w.-]+(?:&[\w.-]+)+",
                                                                                                  parts[1], re.A):
        raise Left("it means more than several flowbits do")
    names = parts[1].split("&")
    if parts[0] == "toggle" and len(set(names)) < len(names):
        raise Left("a bit is toggled twice")
    return [f"flowbits:{parts[0]},{it}" for it in names]

class Migration:
    """Rewrites rules beside the event filters that there are."""
    def __init__(self, configuration):
        self.filters, self.done = [], {}
        for line in configuration.lines():
            if FILTER.match(line.text):
                found = [re.search(rf"{name}[ \t]+(\d+)", line.text) for name in ("gen_id", "sig_id")]
                self.filters.append(tuple(it and it[1] for it in found))

    def rewrite(self, configuration):
        """Rewrites the rules of a configuration; `done` has, by their places, the line as it was and what was done."""
        for file in configuration.files:
            for at, line in enumerate(file.joined):
                if rule_sets.is_rule(line) and (done := self.of(line.text)):
                    self.done[line[:2]] = line, done
                    file.joined[at] = line._replace(text=done.text)

    def of(self, rule):
        """A rule rewritten, or None where nothing is to be done."""
        text, changed = with_blank(rule)
        word, rest = re.match(r"(\S*)(.*)", text, re.S).groups()
        if word in ("drop", "reject"):
            text, changed = "alert" + rest, [*changed, f"{word}: alert"]
        spans = rule_texts.option_spans(text)
        options = [text[begin:end] for begin, end in spans]
        following, left = [], []
        for at in reversed(range(len(options))):
            try:
                instead = expression(options, at) if name_of(options[at]) == "pcre" else \
                    self.instead(options[at], mark_of(options), following, word == "pass")
            except Left as why:
                left.append(f"{options[at]}: {why}")
                continue
            if instead is not None:
                begin, end = spans[at]
                after = text[text.index(";", end) + 1:]
                kept = "".join(f"{it}; " for it in instead)
                text = text[:begin] + (kept + after.lstrip(" \t") if kept else after.lstrip(" \t"))
                changed.append(f"{options[at]}: {'; '.join([*instead, *following]) or 'left out'}")
        return Migrated(text, following, changed, left) if changed or left else None

    def instead(self, option, mark, following, is_pass):
        """The options that an option is rewritten to, None where it stays; a filter is put after the rule."""
        name, value = name_of(option), option.partition(":")[2].strip(" \t")
        if name in LOGS:
            return []
        if name == "flowbits" and "&" in value:
            return bits_of(value)
        if name != "threshold":
            return None
        it = threshold_of(value)
        if is_pass:
            raise Left("a pass rule has no events")
        if mark[1] is None or not NUMBER.fullmatch(mark[1]):
            raise Left("the rule has no sid")
        if mark in self.filters or following:
            raise Left("the rule has a filter")
        if len(self.filters) >= MOST_FILTERS:
            raise Left(f"the program has at most {MOST_FILTERS} event filters")
        self.filters.append(mark)
        following.append(f"event_filter gen_id {mark[0]}, sig_id {mark[1]}, type {it['type']}, track {it['track']}, "
                      f"count {it['count']}, seconds {it['seconds']}")
        return []

def goes_on(option):
    """Whether an option goes on where another one ended."""
    return bool(name_of(option) in ("distance", "within") or re.search(r",[ \t]*relative\b", option)
                or name_of(option) == "pcre" and re.search(r'/[a-zA-Z]*R[a-zA-Z]*"', option))

def expression(options, at):
    """A pcre among options that is written otherwise here, None where it isn't."""
    new = rule_meanings.rewritten(options[at], not any(map(goes_on, options[at + 1:])))
    return [new] if new != options[at] else None

def with_blank(rule):
    """A rule with a blank before the bracket of its options, and whether it was put there."""
    begin, end = rule_texts.word_spans(rule)[6]
    found = re.search(r"(?<!\$)\(", rule[begin:end])
    if not found or found.start() == 0:
        return rule, []
    at = begin + found.start()
    return f"{rule[:at]} {rule[at:]}", ["a blank before the bracket"]
