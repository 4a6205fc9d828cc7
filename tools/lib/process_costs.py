"""What a process took until its end: time of the processor, and memory. Used by speed and eve_speed."""
import os, re, threading

OFTEN = 0.002  # seconds between two looks at the memory

def peak_of(number):
    """The peak of memory of a process in KiB; 0 where it has ended."""
    try:
        with open(f"/proc/{number}/status", encoding="utf-8") as file:
            return int(re.search(r"VmHWM:\s+(\d+)", file.read())[1])
    except (OSError, TypeError):
        return 0

def ended(child):
    """Waits for a child: the seconds of the processor that it took, and its peak of memory in MiB, as it is seen on the way.

    What the system tells of the peak at the end has that of this process in it, of which the child was a copy before it began.
    """
    peak, is_over = [peak_of(child.pid)], threading.Event()
    def watch():
        while not is_over.wait(OFTEN):
            peak.append(max(peak.pop(), peak_of(child.pid)))
    watching = threading.Thread(target=watch)
    watching.start()
    try:
        _, status, used = os.wait4(child.pid, 0)
    finally:
        is_over.set()
        watching.join()
    child.returncode = os.waitstatus_to_exitcode(status)
    return used.ru_utime + used.ru_stime, peak[0] / 1024
