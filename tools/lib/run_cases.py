"""What the tests of runs, join and inspect have in common: captures by their form, files in a folder of their own, a folder of
runs with a program that ends as its captures say, and tests that run side by side.
"""
import importlib.machinery, importlib.util, multiprocessing, os, re, shutil, signal, struct, subprocess, sys, tempfile, time
import unittest
from multiprocessing import connection

TOOLS = os.path.dirname(os.path.dirname(os.path.realpath(__file__)))
TOP = os.path.dirname(TOOLS)
SNORT = os.path.abspath(os.environ.get("SNORT", f"{TOP}/crates/snort_main/out/snort_main"))
MICRO, NANO = 0xA1B2C3D4, 0xA1B23C4D
SECONDS = 900  # after which a test is ended

def has(program):
    return shutil.which(program) is not None

def needs(*programs):
    lacking = [it for it in programs if not has(it)]
    return unittest.skipIf(lacking, f"skipped: no {', '.join(lacking)}")

needs_root = unittest.skipIf(os.getuid(), "skipped: not root")
needs_detector = unittest.skipUnless(os.access(SNORT, os.X_OK), "skipped: the detector isn't built")

def heed(*numbers):
    """Lets children end by these signals: who starts a test may ignore some, as `nohup` does and a shell in what runs beside it,
    and each child takes that over."""
    for number in numbers:
        if signal.getsignal(number) == signal.SIG_IGN:
            signal.signal(number, signal.SIG_DFL)

def head(order="<", magic=MICRO, link=1, version=2):
    """A classic capture's header: magic, version, zone, accuracy, snap length, link type."""
    return struct.pack(order + "IHHiIII", magic, version, 4, 0, 0, 65535, link)

def record(data, second=0, order="<"):
    return struct.pack(order + "4I", second, 0, len(data), len(data)) + data

def section(*blocks, link=1):
    """A pcapng section in the byte order of this machine, with an interface; the blocks are packets."""
    parts = [struct.pack("<IIIHHq", 0x0A0D0D0A, 28, 0x1A2B3C4D, 1, 0, -1) + struct.pack("<I", 28),
             struct.pack("<IIHHII", 1, 20, link, 0, 0, 20)]
    for data in blocks:
        padded = data + bytes(-len(data) % 4)
        size = 32 + len(padded)
        parts.append(struct.pack("<7I", 6, size, 0, 0, 1, len(data), len(data)) + padded + struct.pack("<I", size))
    return b"".join(parts)

def wait_for(is_there, seconds=120):
    until = time.monotonic() + seconds
    while not is_there():
        if time.monotonic() > until:
            raise AssertionError(f"it didn't come in {seconds} seconds")
        time.sleep(0.02)

class Case(unittest.TestCase):
    def setUp(self):
        self.folder = tempfile.mkdtemp()
        self.addCleanup(shutil.rmtree, self.folder, ignore_errors=True)

    def file(self, name, data):
        path = os.path.join(self.folder, name)
        with open(path, "wb") as file:
            file.write(data)
        return path

    def packed(self, program, name, data):
        if not has(program):
            self.skipTest(f"skipped: no {program}")
        return self.file(name, subprocess.run([program, "-c"], input=data, capture_output=True, check=True).stdout)

# --- Folders of runs

# A program that is told by the first word of a capture how to end. One of them waits for a file `go` beside the capture.
PROGRAM = r"""#!/bin/bash
for word; do
    case $word in
        -T) echo 'configuration accepted: 1 rules' >&2; exit 0 ;;
        -r=*) capture=${word#-r=} ;;
    esac
done
[ "$capture" = /dev/stdin ] || read -r what < "$capture"
case $what in
    [1-9]) echo "a line"; echo "ERROR: $what of it" >&2; exit "$what" ;;
    grow) echo more >> "$capture" ;;
    touch) touch "${capture%/*}/rules" ;;
    change) echo '# more' >> "${capture%/*}/rules" ;;
    sleep) sleep 60 ;;
    wait*) until [ -e "${capture%/*}/go" ]; do sleep 0.05; done ;;
    kill) kill -9 $$ ;;
    large) head -c 400000 /dev/zero || exit 4 ;;
    messages) head -c 400000 /dev/zero >&2 ;;
esac
cat -- "$capture"
"""

def script(name):
    """A script of tools/ as a module, which isn't run."""
    loader = importlib.machinery.SourceFileLoader(f"{name}_script", f"{TOOLS}/{name}")
    module = importlib.util.module_from_spec(importlib.util.spec_from_loader(loader.name, loader))
    loader.exec_module(module)
    return module

class RunsCase(Case):
    RUNS = script("runs")

    def setUp(self):
        super().setUp()
        self.runs = os.path.join(self.folder, "runs of 'captures'")
        self.program = self.file("program", PROGRAM.encode())
        os.chmod(self.program, 0o755)
        self.conf = self.file("conf", b"var NAME rules\ninclude $NAME\n")
        self.rules = self.file("rules", b"alert udp any any -> any any (sid:1;)\n")

    def call(self, *words, status=0, given=b"", user=None, begin=None):
        """Standard output of runs, and what it says without the folder: in a child of this process, which spares a start.

        The child is that user, and calls `begin` first.
        """
        with tempfile.TemporaryFile() as source, tempfile.TemporaryFile() as out, tempfile.TemporaryFile() as errors:
            source.write(given)
            source.seek(0)
            sys.stdout.flush(), sys.stderr.flush()
            child = os.fork()
            if child == 0:
                self.become_runs(words, (source, out, errors), user, begin)
            ended = os.waitpid(child, 0)[1]
            out.seek(0), errors.seek(0)
            written, said = out.read().decode(), errors.read().decode().replace(self.folder + "/", "")
        self.assertEqual(os.WEXITSTATUS(ended) if os.WIFEXITED(ended) else -os.WTERMSIG(ended), status, said)
        return written, re.sub("^runs: program is a script: .*\n", "", said, flags=re.M)

    def become_runs(self, words, files, user, begin):
        """Does what `tools/runs WORDS` does in this process, and ends it."""
        try:
            signal.signal(signal.SIGINT, signal.default_int_handler)
            for to, file in enumerate(files):
                os.dup2(file.fileno(), to)
            sys.stdin, sys.stdout, sys.stderr = (open(at, mode, closefd=False) for at, mode in enumerate("rww"))
            os.chdir(self.folder)
            if user is not None:
                os.setgroups([]), os.setgid(user), os.setuid(user)
            if begin:
                begin()
            sys.argv = [f"{TOOLS}/runs", *words]
            self.RUNS.run(self.RUNS.main)
        except SystemExit as ended:
            os._exit(ended.code or 0)
        except BaseException:
            sys.excepthook(*sys.exc_info())
            sys.stderr.flush()
        os._exit(99)

    def make(self, *names, words=(), status=0, program=None, conf="conf", more=()):
        given = b"".join(os.fsencode(it) + b"\n" for it in names)
        return self.call("make", self.runs, *words, program or self.program, "-c", conf, *more, given=given, status=status)

    def captures(self, *texts):
        """Captures with these texts, made, and in the list of a folder of runs."""
        names = [self.file(f"c{number}", text.encode() + b"\n") for number, text in enumerate(texts, 1)]
        self.make(*names)
        return names

    def left(self):
        return [int(it) for it in self.call("left", self.runs)[0].split()]

    def one(self, *numbers, status=0):
        return self.call("one", self.runs, *map(str, numbers), status=status)[1]

    def gather(self, *words, status=0):
        return self.call("gather", self.runs, *words, status=status)[1]

    def read(self, name):
        with open(os.path.join(self.runs, name), "rb") as file:
            return file.read()

    def rows(self):
        return [it.split("\t") for it in self.read("runs.tsv").decode().splitlines()[1:]]

    def failed(self, number=1):
        return self.read(f"runs/{number // 1000}/{number}.failed").decode().rstrip("\n").split("\t")

    def tries(self):
        return os.listdir(f"{self.runs}/tries")

# --- Tests side by side

def long(test):
    """A test that waits long, which begins before the others."""
    test.is_long = True
    return test

def flat(suite):
    for it in suite:
        yield from flat(it) if isinstance(it, unittest.TestSuite) else [it]

def late(*_):
    raise AssertionError(f"the test didn't end in {SECONDS} seconds")

def ran_apart(test, told):
    """Runs a test in this process, and tells what came: failures and errors as text, reasons of what was skipped."""
    signal.signal(signal.SIGALRM, late)
    signal.alarm(SECONDS)
    result = unittest.TestResult()
    unittest.TestSuite([test]).run(result)
    texts = [[f"{it}\n{text}" for it, text in found] for found in (result.failures, result.errors)]
    told.send((*texts, [reason for _, reason in result.skipped]))
    told.close()

class SideBySide(unittest.TestSuite):
    """Tests of which each has a process of its own, as many at a time as there are processors."""
    MOST = max(2, len(os.sched_getaffinity(0)))

    def run(self, result, debug=False):
        waiting, running, context = list(self), {}, multiprocessing.get_context("fork")
        while waiting or running:
            while waiting and len(running) < self.MOST:
                test, (hears, tells) = waiting.pop(0), context.Pipe(False)
                child = context.Process(target=ran_apart, args=(test, tells))
                child.start()
                tells.close()
                running[hears] = test, child
            for hears in connection.wait(running):
                self.add(result, hears, *running.pop(hears))
        return result

    @staticmethod
    def add(result, hears, test, child):
        try:
            failures, errors, reasons = hears.recv()
        except EOFError:
            child.join()
            failures, errors, reasons = [], [f"{test}\nits process ended with {child.exitcode}"], []
        hears.close()
        child.join()
        result.testsRun += 1
        result.failures += [(test, it) for it in failures]
        result.errors += [(test, it) for it in errors]
        result.skipped += [(test, it) for it in reasons]

class Runner(unittest.TextTestRunner):
    def run(self, suite):
        begins_later = lambda it: not hasattr(getattr(it, it._testMethodName), "is_long")
        return super().run(SideBySide(sorted(flat(suite), key=begins_later)))

def main():
    """Runs the tests, and says what was skipped, and why."""
    ran = unittest.main(verbosity=0, exit=False, testRunner=Runner).result
    for reason in sorted({it for _, it in ran.skipped}):
        print(reason)
    sys.exit(not ran.wasSuccessful())
