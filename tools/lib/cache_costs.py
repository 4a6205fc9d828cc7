"""What callgrind counts of a run's caches and branches: sums of a file that it wrote, and by function."""
import re
from collections import namedtuple

# One first cache of code and one of data, and a last one so large that it misses first touches alone: the same on every machine.
CACHES = ["--cache-sim=yes", "--branch-sim=yes", "--I1=32768,8,64", "--D1=32768,8,64", "--LL=67108864,16,64"]
# What an event is made of, by callgrind's names.
EVENTS = {"instructions": ["Ir"], "code": ["I1mr"], "data": ["D1mr", "D1mw"], "guesses": ["Bcm", "Bim"], "last": ["ILmr", "DLmr", "DLmw"]}

class Cost(namedtuple("Cost", EVENTS)):
    """Instructions; misses of the first cache of code and of data; mispredicted branches; misses of the last cache."""

    def __sub__(self, other):
        return Cost(*(mine - its for mine, its in zip(self, other)))

    def __truediv__(self, count):
        return Cost(*(it / count for it in self))

    @property
    def estimate(self):
        """Cycles, as callgrind's manual estimates them: CEst."""
        return self.instructions + 10 * (self.code + self.data + self.guesses) + 100 * self.last

def cost_of(counts, events):
    told = dict(zip(events, counts + [0] * len(events)))
    return Cost(*(sum(told.get(name, 0) for name in names) for names in EVENTS.values()))

def read_costs(text):
    """The sum of a file of callgrind's, and each function's own cost, by its name."""
    events, names, functions, at, inner = [], {}, {}, None, False
    for line in text.splitlines():
        if line.startswith("events:"):
            events = line.split()[1:]
        elif line.startswith("fn="):
            at = named(line[3:], names)
        elif line.startswith("calls="):
            inner = True  # the next line has what the called function cost with all below it
        elif re.match(r"[\d+*-]", line):
            if not inner and at is not None:
                counts = list(map(int, line.split()[1:]))
                functions[at] = [mine + its for mine, its in zip(functions.get(at, [0] * len(events)), counts + [0] * len(events))]
            inner = False
        else:
            found = re.match(r"cfn=(.*)", line)
            if found:
                named(found[1], names)
    costs = {name: cost_of(counts, events) for name, counts in functions.items()}
    return Cost(*map(sum, zip(*costs.values()))) if costs else Cost(*[0] * len(EVENTS)), costs

def named(text, names):
    """The name of a function: `(id) name` where it comes first, then `(id)` alone."""
    number, name = re.fullmatch(r"(\(\d+\))?\s*(.*)", text).groups()
    if number and name:
        names[number] = name
    return names.get(number, name)
