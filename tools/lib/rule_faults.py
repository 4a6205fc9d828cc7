"""Which lines and rules of a configuration the program refuses, why, and where in the line. Used by check_rules.

The program ends at the first fault that --skip-refused doesn't skip, so each of these costs a run. Rules are judged by parts:
each header that there is once; then the options after a header that is good, up to the first whose name is none, many rules
in a run; at last all that is left together. What a name alone is refused for is asked once for each name.
"""
import itertools, os, re
from collections import namedtuple

import rule_texts, rule_sets, scripts
from rule_sets import cut_word, told

# The line, the program's text, where in the line's text the fault begins and ends, and another line that it is about.
Fault = namedtuple("Fault", "line text begin end other", defaults=(0, 0, None))
NAMES = frozenset(
    "msg gid sid rev priority classtype reference metadata nocase rawbytes offset depth distance within fast_pattern content "
    "pcre byte_test byte_jump byte_extract isdataat flow flags fragbits detection_filter dsize sameip stream_size "
    "stream_reassemble flowbits ttl tos id fragoffset ip_proto seq ack window itype icode icmp_id icmp_seq".split())
DIRECTIVES = frozenset(
    "var ipvar portvar include config preprocessor output dynamicpreprocessor dynamicengine dynamicdetection event_filter "
    "suppress attribute_table rate_filter threshold ruletype rule_state".split())
LIST = re.compile(r"(?:\bbind_to|\bip|\A(?:ip|port)var[ \t]+\w+)[ \t]+(\S)")  # where a list begins in a line that is no rule
GOOD = "alert ip any any -> any any "
PLACES = {"unknown action": 0, "outside this profile": 0, "unknown protocol": 1, "bad direction": 4}  # of words of a header
LATE = ("missing sid", "unknown class", "duplicate sid", "pattern is refused")  # told after all other faults
BY_FORM = ("bad option value", "outside this profile", "pattern is refused")  # whatever comes before the option
BY_VALUE = ("pcre", "flowbits", "byte_test", "byte_jump", "byte_extract", "stream_reassemble")  # outside by some values
FEWEST, MOST = 16, 256  # rules in a run
SPARE_SID = 4294967295  # counted down, of rules that are cut off before their own

def name_of(option):
    return option.partition(":")[0].strip(" \t")

class Judge:
    """Judges a configuration in a folder for copies, with a pool of threads and words for the program."""
    def __init__(self, configuration, folder, pool, words):
        self.configuration, self.folder, self.pool, self.words = configuration, folder, pool, words
        self.faults, self.passed_over, self.names, self.classes = [], [], {}, []
        self.alike = set()  # texts, and options that are refused with them
        self.files, self.spare = itertools.count(), itertools.count(SPARE_SID, -1)
        lines = [it for place in range(len(configuration.files)) for it in configuration.files[place].joined]
        self.by_place = {it[:2]: it for it in lines}
        self.rules = [it for it in configuration.lines() if rule_sets.is_rule(it)]
        self.others = [it for it in lines if not rule_sets.is_rule(it) and not it.text.startswith("#")]
        self.gone = {it[:2] for it, _ in configuration.faults}

    def refuse(self, fault):
        self.faults.append(fault)
        self.gone.add(fault.line[:2])

    def said(self, texts, words=None):
        """What the program says of a file of these lines, each as (line from 0 on, text); and whether it is accepted."""
        name = f"lines-{next(self.files)}"
        rule_sets.write(f"{self.folder}/{name}", map(rule_sets.in_copy, texts))
        status, found = told(self.folder, name, self.words if words is None else words)
        os.remove(f"{self.folder}/{name}")
        return [(number - 1, text) for _, _, number, text in found if not text.startswith("skipped: ")], status == 0

    def each(self, texts, front):
        """What the program says of each line, after others: None where it is accepted. It ends at the last line that it names,
        so then those after that one are looked at."""
        answers, begin, accepted = [None] * len(texts), 0, False
        while not accepted:
            found, accepted = self.said([*front, *texts[begin:]])
            if any(number < len(front) for number, _ in found):
                raise scripts.Stop(f"the program refuses a line that it accepted: {found[0][1]}")
            for number, text in found:
                answers[begin + number - len(front)] = text
            begin += max((number for number, _ in found), default=0) - len(front) + 1
        return answers

    def of_all(self, texts, front=()):
        """The same of many lines, in several runs side by side."""
        size = min(max(len(texts) // 16, FEWEST), MOST)
        parts = [texts[at:at + size] for at in range(0, len(texts), size)]
        return [it for part in self.pool.map(lambda part: self.each(part, front), parts) for it in part]

    def alone(self, texts, front=()):
        """The same, each in a run of its own."""
        return [it[0] for it in self.pool.map(lambda text: self.each([text], front), texts)]

    # --- Lines that are no rules

    def judge_lines(self):
        words = sorted({cut_word(it.text)[0] for it in self.others} - DIRECTIVES)
        unknown = {word for word, text in zip(words, self.alone(words)) if text == "unknown directive"}
        for line in self.others:
            if cut_word(line.text)[0] in unknown:
                self.refuse(Fault(line, "unknown directive", 0, len(cut_word(line.text)[0])))
        self.passed_over = self.refused_lines({it[:2] for it in self.rules})

    def refused_lines(self, besides):
        """Refuses what the program refuses of all files without these lines, until it accepts them; what is passed over."""
        while True:
            self.configuration.write(self.folder, self.gone | besides)
            status, found = told(self.folder, "0", self.words)
            passed = []
            for _, place, number, text in found:
                line = self.by_place[int(place), number]
                if text.startswith("skipped: "):
                    passed.append(Fault(line, text))
                else:
                    self.refuse(self.of_line(line, text))
            if status == 0:
                return passed

    def of_line(self, line, text):
        """The fault of a line that is no rule, or of a rule among all of them."""
        if text.startswith("undefined variable ") and (at := line.text.find(text.split(" ", 2)[2])) >= 0:
            return Fault(line, text, at, at + len(text.split(" ", 2)[2]))
        if rule_sets.is_rule(line):
            return Fault(line, text)
        found = LIST.search(line.text) if text in ("bad address list", "bad port list") else None
        at = found.start(1) if found else self.setting_at_fault(line.text, text)
        return Fault(line, text, at, at)

    def setting_at_fault(self, line, text):
        """Where the setting of a preprocessor begins for which a line is refused, if commas separate them; else 0."""
        found = re.match(r"preprocessor[ \t]+stream5_\w+[ \t]*:", line)
        if not found or text != "bad value":
            return 0
        ends = [it.start() for it in re.finditer(r",(?![^\[]*\])", line)] + [len(line)]
        front = self.context(rule_sets.VARIABLE)
        at = next((at for at, end in enumerate(ends) if text in self.each([line[:end]], front)), 0)
        begin = ends[at - 1] + 1 if at else found.end()
        return begin + len(line[begin:]) - len(line[begin:].lstrip(" \t"))

    # --- Rules

    def context(self, pattern):
        return [it.text for it in self.configuration.lines() if it[:2] not in self.gone and pattern.match(it.text)]

    def judge_rules(self):
        """Judges the headers, then the options of rules whose header is good, then all rules together."""
        self.judge_apart(self.rules)
        self.judge_numbers([it for it in self.rules if it[:2] not in self.gone])
        self.refused_lines(set())

    def judge_apart(self, rules):
        """Judges rules without regard to each other; the faults so far."""
        self.classes = self.context(rule_sets.CLASS)
        self.judge_options(self.judge_headers([it for it in rules if it[:2] not in self.gone]))
        return self.faults

    def judge_headers(self, rules):
        """The rules whose header is good; each header is looked at once."""
        headers, front = {}, self.context(rule_sets.VARIABLE)
        for line in rules:
            headers.setdefault(tuple(line.text[begin:end] for begin, end in rule_texts.word_spans(line.text)), []).append(line)
        seen = list(headers)
        answers = self.of_all([f"{' '.join(it)} (sid:{number};)" for number, it in enumerate(seen, 1)], front)
        bad = [(words, text) for words, text in zip(seen, answers) if text]
        for (words, text), place in zip(bad, self.pool.map(lambda it: self.word_at_fault(*it, front), bad)):
            for line in headers[words]:
                span = rule_texts.word_spans(line.text)[place] if place is not None else (0, 0)
                self.refuse(Fault(line, text, *span))
        return [it for it in rules if it[:2] not in self.gone]

    def word_at_fault(self, words, text, front):
        """Which word of a header is at fault; None where that isn't known."""
        good = GOOD.split()
        if text in PLACES:
            return PLACES[text]
        if text.startswith("undefined variable "):
            name = re.escape(text.split(" ", 2)[2])
            if places := [at for at, word in enumerate(words) if re.search(rf"\$\(?{name}(?!\w)", word)]:
                return places[0]
        return next((at for at in range(7) if text in self.each([f"{' '.join([*words[:at + 1], *good[at + 1:]])} (sid:1;)"],
                                                                front)),
                    None)

    def judge_options(self, rules):
        self.ask_names({name_of(it) for line in rules for it in rule_texts.options_of(line.text)} - NAMES)
        layers = {}  # rules of the same number are looked at in other runs
        for line in rules:
            text, refused, mark = self.cut(line)
            layers.setdefault(mark or line[:2], []).append((line, text, refused))
        for at in range(max(map(len, layers.values()), default=0)):
            self.judge_layer([it[at] for it in layers.values() if len(it) > at])

    def ask_names(self, names):
        """Which names of options are refused whatever follows them."""
        names = sorted(names - {""})
        answers = self.alone([f"{GOOD}({name}; sid:1;)" for name in names])
        self.names = {name: text for name, text in zip(names, answers) if text in ("unknown option", "outside this profile")}

    def cut(self, line):
        """A rule with a good header up to its first option that is refused for its name, that option's number, and the rule's
        own generator and number if they come before it."""
        options = rule_texts.options_of(line.text)
        refused = next((at for at, it in enumerate(options) if name_of(it) in self.names), None)
        if refused is None or not is_closed(line.text):
            mark = mark_of(options)
            return GOOD + line.text[rule_texts.options_start(line.text):], None, mark if mark[1] else None
        options = options[:refused]
        mark = mark_of(options)
        return self.rule_of(options), refused, mark if mark[1] else None

    def rule_of(self, options):
        """A rule of these options, and a number where they have none."""
        own = [] if any(name_of(it) == "sid" for it in options) else [f"sid:{next(self.spare)}"]
        return f"{GOOD}({' '.join(it + ';' for it in [*options, *own])})"

    def judge_layer(self, layer):
        answers = self.of_all([text for _, text, _ in layer], self.classes)
        found = []
        for (line, _, refused), text in zip(layer, answers):
            if refused is not None and (text is None or text in LATE):
                span = rule_texts.option_spans(line.text)[refused]
                self.refuse(Fault(line, self.names[name_of(line.text[slice(*span)])], *span))
            elif text is not None:
                found.append((line, text))
        for (line, text), span in zip(found, self.pool.map(lambda it: self.option_at_fault(*it), found)):
            self.refuse(Fault(line, text, *span))

    def option_at_fault(self, line, text):
        """Where the option is for which a rule is refused."""
        spans = rule_texts.option_spans(line.text)
        names = [name_of(line.text[begin:end]) for begin, end in spans]
        end = len(line.text) - is_closed(line.text)
        if text == "bad option syntax":
            return syntax_fault(line.text, spans, names)
        if text == "missing sid":
            return end, end
        if text == "unknown class":
            return next((spans[at] for at, name in enumerate(names) if name == "classtype"), (0, 0))
        places = [at for at, name in enumerate(names)
                  if name == "pcre"] if text == "pattern is refused" else list(range(len(spans)))
        if text == "outside this profile":
            places = [at for at in places if names[at] in BY_VALUE or names[at] not in NAMES]
        options = [line.text[begin:end] for begin, end in spans]

        def is_refused(place):  # the fault of the leftmost option is told, so it stays where more options follow
            return text in self.each([self.rule_of(options[:place + 1])], self.classes)

        if not places or text == "limit exceeded" and not is_refused(places[-1]):
            return 0, 0
        low, high = -1, len(places) - 1
        known = next((at for at, place in enumerate(places) if (text, options[place]) in self.alike), None)
        if known is not None:
            low, high = (-1, known - 1) if known > 0 and is_refused(places[known - 1]) else (known - 1, known)
        while high - low > 1:
            middle = (low + high) // 2
            low, high = (low, middle) if is_refused(places[middle]) else (middle, high)
        option = options[places[high]]
        if text in BY_FORM and (text, option) not in self.alike and text in self.each([self.rule_of([option])], self.classes):
            self.alike.add((text, option))  # refused by itself, so in the next rule it is, too
        return spans[places[high]]

    def judge_numbers(self, rules):
        """Refuses rules whose generator and number an earlier one has: both are decimal digits without zeros in front."""
        first = {}
        for line in rules:
            before = first.setdefault(mark_of(rule_texts.options_of(line.text)), line)
            if before is not line:
                spans = rule_texts.option_spans(line.text)
                span = next(it for it in spans if name_of(line.text[slice(*it)]) == "sid")
                self.refuse(Fault(line, "duplicate sid", *span, before))

def is_closed(rule):
    begin = rule_texts.options_start(rule)
    return rule[begin:begin + 1] == "(" and rule.endswith(")") and len(rule) > begin + 1

def mark_of(options):
    """The generator and the number of a rule of these options, as they are written."""
    given = {}
    for option in options:
        given.setdefault(name_of(option), option.partition(":")[2].strip(" \t"))
    return given.get("gid", "1"), given.get("sid")

def syntax_fault(rule, spans, names):
    """Where the brackets, a `;` or a name lacks."""
    begin = rule_texts.options_start(rule)
    if rule[begin:begin + 1] != "(":
        return begin, begin + 1
    if not is_closed(rule):
        return len(rule) - 1, len(rule)
    for span, name in zip(spans, names):
        if not name:
            return span
    at = (rule.index(";", spans[-1][1]) if spans else begin) + 1
    return at + len(rule[at:]) - len(rule[at:].lstrip(" \t")), len(rule) - 1
