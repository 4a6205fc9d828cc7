"""What a test does beside a Slurm, within with_slurm: `slurm_cases.py FIRST SECOND FOLDER`.

Two scripts of pages submit arrays, and run once more when these have ended. Then a node is killed, with its tasks, while an
array makes results in FOLDER, and a second array makes what is left.
"""
import os, signal, subprocess, sys, time

sys.dont_write_bytecode = True
# Of three captures of a task the first ends at once, and the others wait until it is said.
TEXTS = [f"{'line' if number % 3 == 0 else 'wait'} {number}" for number in range(12)]

def said(*words):
    return subprocess.run(words, capture_output=True, text=True).stdout

def wait_until(is_there, seconds):
    until = time.monotonic() + seconds
    while not is_there() and time.monotonic() < until:
        time.sleep(0.1)

def is_idle():
    return not said("squeue", "-h")

def array(folder):
    """Submits an array of what is left, as the page does, but with blocks of three."""
    command = ('tools/runs left "$0" > "$0/left" && '
               'sbatch --array=1-$(($(wc -l < "$0/left") / 3 + 1)) examples/cluster/slurm "$0" 3')
    subprocess.run(["bash", "-c", command, folder], check=True, stdout=subprocess.DEVNULL)

def tasks_of(node):
    """The processes of our Slurm's tasks on a node, with the ones that started them."""
    conf, found = f"SLURM_CONF={os.environ['SLURM_CONF']}".encode(), set()
    for pid in filter(str.isdigit, os.listdir("/proc")):
        try:
            with open(f"/proc/{pid}/environ", "rb") as file:
                values = file.read().split(b"\0")
            if conf in values and b"SLURMD_NODENAME=" + node.encode() in values:
                with open(f"/proc/{pid}/stat") as file:
                    parent = file.read().rpartition(")")[2].split()[1]
                with open(f"/proc/{parent}/comm") as file:
                    found |= {int(pid), *([int(parent)] if file.read().startswith("slurmstepd") else [])}
        except OSError:
            pass  # it has ended
    return found

def done(folder):
    """How many captures were inspected on each node."""
    found = {}
    for name in os.listdir(f"{folder}/runs/0"):
        if name.endswith(".done"):
            with open(f"{folder}/runs/0/{name}", "rb") as file:
                node = file.read().split(b"\t")[3].decode()
            found[node] = found.get(node, 0) + 1
    return found

def kill_node(node):
    with open(f"{os.environ['NODES']}/{node}.pid") as file:
        pids = {int(file.read())}
    for pid in pids | tasks_of(node):
        try:
            os.kill(pid, signal.SIGKILL)
        except OSError:
            pass

def run_pages(scripts):
    """What is on pages, twice: the second time as the retry of what is left."""
    for _ in range(2):
        for script in scripts:
            subprocess.run(["bash", "-e", script], check=True)
        wait_until(is_idle, 120)

def run_killed(folder):
    """Two arrays of tasks; a node is killed during the first one."""
    array(folder)
    wait_until(lambda: "n2" in done(folder), 90)  # whose task has captures that wait
    kill_node("n2")
    killed_at = sum(done(folder).values())
    subprocess.run(["scontrol", "update", "nodename=n2", "state=down", "reason=killed"])  # as Slurm finds itself, but later
    with open("held/go", "w"):
        pass
    wait_until(is_idle, 90)
    left = said("tools/runs", "left", folder).count("\n")
    print(f"{killed_at} results when n2 was killed, {left} left after the first array")
    array(folder)
    wait_until(lambda: not said("tools/runs", "left", folder), 90)
    return 0 if 0 < killed_at < len(TEXTS) and left else 1

if __name__ == "__main__":
    run_pages(sys.argv[1:3])
    sys.exit(run_killed(sys.argv[3]))
