"""What test_package needs: commands of the page about packages, machines, a shell and what is typed there, a reader of HTML."""
import os, pty, re, select, shutil, time
from html.parser import HTMLParser

TOP = os.path.dirname(os.path.dirname(os.path.dirname(os.path.realpath(__file__))))
SECONDS = 300

def blocks(heading):
    """The `sh` blocks under a heading of the page."""
    with open(f"{TOP}/docs/manual/field.md", encoding="utf-8") as file:
        text = re.search(rf"^### {heading}\n(.*?)(?=^##)", file.read(), re.M | re.S)[1]
    return re.findall(r"^```sh\n(.*?)^```$", text, re.M | re.S)

# What stands for the commands by which machines are reached, each of which is a folder of HOSTS, and on which they install.
MACHINES = {
    "scp": 'to="${@: -1}"; cp "${@:2:$#-2}" "$HOSTS/${to%%:*}/tmp/"',
    "ssh": r'cd "$HOSTS/$1" && command="${2//\/tmp\//tmp/}" && exec bash -c "${command//\/usr\//usr/}"',
    "sudo": 'exec "$@"',
    "apt-get": 'exec dpkg -i "${@: -1}"',
    "dpkg": f'exec {shutil.which("dpkg")} --root="$PWD" --path-include="/*" --force-depends "$@"',
    "dpkg-query": f'exec {shutil.which("dpkg-query")} --admindir="$PWD/var/lib/dpkg" "$@"',
}

def write_scripts(folder, scripts):
    os.makedirs(folder)
    for name, text in scripts.items():
        with open(f"{folder}/{name}", "w", encoding="utf-8") as file:
            file.write(f"#!/bin/bash\n{text}\n")
        os.chmod(f"{folder}/{name}", 0o755)

TYPED = [  # what is typed, and the words of it in bash, and in zsh where they are others
    ("snort --la\t4", "--lanes 4", "--lanes=4"),
    ("snort --la\t 4 --see\t7", "--lanes 4 --seed 7", "--lanes 4 --seed=7"),
    ("snort -k nou\t --host\td/b\t", "-k noudp --host-table d/b.conf", "-k noudp --host-table=d/b.conf"),
    ("snort --host-table=d/b\t", "--host-table=d/b.conf"),
    ("snort -c d/b\t -r sp\t", "-c d/b.conf -r sp_ace.pcap"),
    ("snort -qTc d/b\t", "-qTc d/b.conf"),
    ("snort -A \t --skip\t --stat\t --flush\t", "-A console --skip-refused --stats --flush-point"),
    # Nothing is offered twice, beside what it is refused with, or where a number or a text is wanted.
    ("snort --stats --stat\t", "--stats --stat"),
    ("snort -r x --gen\t", "-r x --gen"),
    ("snort --generate 5 -\td/b\t", "--generate 5 -d/b"),
    ("snort -q --read\t", "-q --read"),
    ("snort --read\td/b\t --sta\t", "--read-unified2 d/b.conf --sta", "--read-unified2=d/b.conf --sta"),
    ("snort --lanes d\t -n d\t -S d\t", "--lanes d -n d -S d"),
    ("snort_eve d/b\t sp\t", "d/b.conf sp_ace.pcap"),
    ("snort_eve --pc\tsp\t --com\t7 d/b\t", "--pcap-filename sp_ace.pcap --community-id-seed 7 d/b.conf",
     "--pcap-filename=sp_ace.pcap --community-id-seed=7 d/b.conf"),
    ("snort_eve --host d\t --hos\t d/b\t", "--host d --hos d/b.conf"),
    ("snort_eve --li\t --y\t2023 d/b\t", "--lines --year 2023 d/b.conf", "--lines --year=2023 d/b.conf"),
    ("snort_eve --hel\t", "--help"),
    ("snort_eve -c d/b\t -S d\t --hel\t", "-c d/b.conf -S d --hel"),
]

def without_programs():
    """What this process has around it, but for the names of programs."""
    return {name: value for name, value in os.environ.items() if name not in ("SNORT", "SNORT_EVE")}

class Terminal:
    """A shell at a terminal, in which the programs show the words that they are given."""
    SHOWN = "snort() { printf '[<'; printf '%s|' \"$@\"; printf '>]\\n'; }; snort_eve() { snort \"$@\"; }; printf 're%s' 'ady!'"

    def __init__(self, *command, begin):
        self.read, (self.child, self.stream) = b"", pty.fork()
        if self.child == 0:
            os.environ.update(TERM="dumb", PS1="", INPUTRC="/dev/null", HOME="/nonexistent", HISTFILE="")
            os.execvp(command[0], command)
        self.write(f"{begin}; {self.SHOWN}\n")
        self.until(b"ready!")

    def write(self, text):
        os.write(self.stream, text.encode())

    def until(self, mark):
        end = time.monotonic() + SECONDS
        while mark not in self.read:
            if not select.select([self.stream], [], [], max(0, end - time.monotonic()))[0]:
                raise TimeoutError(self.read.decode(errors="replace"))
            self.read += os.read(self.stream, 65536)
        before, self.read = self.read.split(mark, 1)
        return before.decode(errors="replace")

    def words(self, typed):
        """The words that a line has in the end, in which tabs were typed."""
        self.write(typed + "\n")
        return self.until(b"|>]").rpartition("[<")[2].split("|")

    def close(self):
        os.close(self.stream)  # the shell is told that the terminal is gone
        os.waitpid(self.child, 0)

class Reader(HTMLParser):
    """The links and the anchors of an HTML page, its tags, and its text."""
    def __init__(self, text):
        super().__init__()
        self.links, self.anchors, self.tags, self.text = [], set(), [], ""
        self.feed(text)

    def handle_starttag(self, tag, attributes):
        given = dict(attributes)
        self.tags.append(tag)
        self.links += [given[it] for it in ("href", "src", "srcset") if given.get(it)]
        self.anchors.update([given["id"]] if "id" in given else [])

    def handle_data(self, data):
        self.text += data
