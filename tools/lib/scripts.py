"""What scripts have in common: their help, how they end, and the programs that they run."""
import functools, os, re, signal, sys

import built

TOP = os.path.dirname(os.path.dirname(os.path.dirname(os.path.realpath(__file__))))

class Stop(Exception):
    """Why a script gives no answer: a sentence."""

def program():
    """The program: ./snort, or the one that SNORT names."""
    return os.path.abspath(os.environ.get("SNORT") or f"{TOP}/snort")

@functools.cache
def eve_program():
    """The program snort_eve, or None where there is none.

    It is the one that SNORT_EVE names, none if that is empty; else that of this checkout, if no source is newer; else the one
    that is beside the program.
    """
    named = os.environ.get("SNORT_EVE")
    if named is not None:
        return os.path.abspath(named) if named else None
    try:
        if built.is_current("snort_eve"):
            return built.path_of("snort_eve")
    except OSError:  # there are no sources here, or they change
        pass
    folder = os.path.dirname(program())
    is_launcher = folder == TOP and os.path.exists(built.CRATES)
    return f"{folder}/snort_eve" if os.access(f"{folder}/snort_eve", os.X_OK) and not is_launcher else None

def built_eve():
    """The program snort_eve for tests, examples and measurements: the one that SNORT_EVE names, else that of this checkout,
    whatever its age; None where there is none."""
    path = os.environ.get("SNORT_EVE", built.path_of("snort_eve"))
    return os.path.abspath(path) if path and os.access(path, os.X_OK) else None

def as_called(text):
    """A text with the names by which scripts are called: that of this one, and of the others that are beside it.

    Where this one is called snort-runs, tools/runs is snort-runs, tools/make_capture is snort-make-capture if that is there, and
    ./snort is snort.
    """
    folder, name = os.path.split(sys.argv[0])
    own = os.path.basename(os.path.realpath(sys.argv[0]))
    if name in ("", own):
        return text
    front = name[:-len(own)] if name.endswith(own.replace("_", "-")) else None
    def called(found):
        if found[1] == own:
            return name
        other = None if front is None else front + found[1].replace("_", "-")
        return other if other and os.path.exists(os.path.join(folder, other)) else found[0]
    return re.sub(r"\btools/(\w+)(?!\w|[./]\w)", called, text).replace("./snort", "snort")

def status_of(main, help_text):
    words = sys.argv[1:]
    if words[:1] == ["--help"]:
        print(as_called(help_text.strip()))
        return 0
    return main(words)

def run(main, help_text):
    """Runs a script: main gives its status for its words. Without an answer the status is 2, and a sentence says why.

    Where who reads the output went away, it ends without a word.
    """
    if sys.stdout is None:
        print("standard output is closed", file=sys.stderr)
        sys.exit(2)
    for stream in filter(None, (sys.stdout, sys.stderr)):
        stream.reconfigure(encoding="utf-8", errors="surrogateescape")
    for number in (signal.SIGTERM, signal.SIGHUP):
        if signal.getsignal(number) != signal.SIG_IGN:
            signal.signal(number, lambda number, frame: sys.exit(128 + number))
    status = told = None
    try:
        status = status_of(main, help_text)
        sys.stdout.flush()
    except BrokenPipeError:
        status = 1
    except KeyboardInterrupt:
        status = 130
    except Stop as why:
        status, told = 2, str(why).replace(help_text.strip(), as_called(help_text.strip()))
    except OSError as fault:
        status, told = 2, f"{fault.filename or 'standard output'}: {fault.strerror}"
    if told:
        print(told, file=sys.stderr)
    try:
        sys.stdout.flush()
    except OSError:  # what can't be written any more is left
        os.dup2(os.open(os.devnull, os.O_WRONLY), sys.stdout.fileno())
    sys.exit(status)
