"""A case that differs, made small, and written to a folder with its commands. Used by verify."""
import os, random, re, shutil, tempfile

import verify_options as options
from verify_bench import Bench, Failed
from verify_promises import PROMISES

SECONDS = 40  # of the processor, that a reduction takes at most
NUMBER = re.compile(rb"\(\d+\)|at byte \d+")

def compared(name, case, bench, seed):
    """The comparisons of a promise on a case, each None or what differs; the bench notes the commands of all."""
    return PROMISES[name](case, bench, random.Random(seed))

def worked():
    """The processor's seconds so far, of this process and of the runs that it waited for."""
    return sum(os.times()[:4])

def found_difference(name, case, bench, seed):
    """What differs first, or None."""
    bench.clear()
    return next((what for what in compared(name, case, bench, seed) if what), None)

def end_of_base(case, bench):
    """How the case itself ends, without numbers of lines and bytes: a smaller case has to end in the same way."""
    end = bench.base(case)
    lines = end.errors.splitlines()
    return end.status, [NUMBER.sub(b"", it) for it in lines if it.startswith(b"ERROR")]

class Reducer:
    def __init__(self, name, case, bench, seed):
        self.name, self.case, self.bench, self.seed = name, case, bench, seed
        bench.clear()
        self.end, self.deadline = end_of_base(case, bench), worked() + SECONDS

    def differs(self, case):
        if worked() > self.deadline:
            return False
        self.bench.clear()
        return end_of_base(case, self.bench) == self.end and bool(found_difference(self.name, case, self.bench, self.seed))

    def left(self, items, case_with):
        """What is left of a list once all is left out without which the case still differs."""
        size = max(1, len(items) // 2)
        while items:
            at, was = 0, len(items)
            while at < len(items):
                fewer = items[:at] + items[at + size:]
                case = case_with(fewer)
                if self.differs(case):
                    items, self.case = fewer, case
                else:
                    at += size
            if size == 1 and len(items) == was:
                break
            size = max(1, size // 2)
        return items

    def without_options(self, at):
        line = self.case.lines[at]
        def case_with(kept):
            lines = list(self.case.lines)
            lines[at] = options.rule_of(line, kept)
            return self.case._replace(lines=lines)
        self.left(options.options_of(line), case_with)

    def reduced(self):
        before = None
        while before != self.case and worked() < self.deadline:
            before = self.case
            self.left(list(self.case.records), lambda it: self.case._replace(records=it))
            self.left(list(self.case.lines), lambda it: self.case._replace(lines=it))
            if self.case.hosts is not None:
                self.left(list(self.case.hosts), lambda it: self.case._replace(hosts=it or None))
            for at in range(len(self.case.lines)):
                self.without_options(at)
        return self.case

def written(folder, name, case, seed, program, how):
    """Writes the files of a case, its commands and what differs; gives what differs, or None where nothing does any more."""
    with tempfile.TemporaryDirectory() as room:
        bench = Bench(program, room)
        what = found_difference(name, case, bench, seed)
        commands = [*bench.first_commands, *bench.commands]
        try:
            os.makedirs(folder, exist_ok=True)
            bench.capture(case)
            for file in os.listdir(room):
                if file in ("conf", "capture", "hosts") or any(re.search(rf"(?<!\S){re.escape(file)}(?!\S)", it) for it in commands):
                    shutil.copyfile(f"{room}/{file}", f"{folder}/{file}")
            with open(f"{folder}/commands", "w", encoding="utf-8") as out:
                out.write("# What these runs write should agree. SNORT names the program.\n: ${SNORT:=snort}\n")
                out.writelines(f"{it}\n" for it in commands)
            with open(f"{folder}/README", "w", encoding="utf-8") as out:
                out.write(f"promise: {name}\ndiffers: {what or 'not in each run'}\nfound by: {how}\n"
                          f"{len(case.records)} records, {len(case.lines)} lines of configuration\n")
        except OSError as fault:
            raise Failed(f"cannot write {folder}: {fault.strerror}") from None
    return what
