"""Alert lines and Unified2 records, worked out by hand, and what runs scripts on them. Used by test_field and test_report."""
import io, os, struct, subprocess, sys
from base64 import b64encode
from hashlib import sha1

import alerts, rule_texts

TOOLS = os.path.dirname(os.path.dirname(os.path.realpath(__file__)))
FIRST = "01/01-00:00:00.000000  [**] [1:1:0] "
TAIL = " [**] [Priority: 0] {UDP} 10.0.0.1:1000 -> 10.0.0.2:2000"
LINE = FIRST + "t" + TAIL
FRAME = bytes.fromhex("0200000000020200000000010800" "4500001f00010000401166cb0a0000010a000002" "03e807d0000b0000" "616263")
EVENT = bytes.fromhex("0000000700000034" "00000000000000010000000000000000000000010000000100000000" "0000000000000000"
                      "0a0000010a000002" "03e807d0" "11000000")
PACKET = bytes.fromhex("0000000200000049" "000000000000000100000000" "0000000000000000" "00000001" "0000002d") + FRAME
FLOW = sha1(bytes.fromhex("0000" "0a000001" "0a000002" "11" "00" "03e8" "07d0")).digest()  # as a community ID has it
EVE = (f'{{"timestamp":"1970-01-01T00:00:00.000000+0000","flow_id":{int(FLOW.hex()[:12], 16)},"event_type":"alert",'
       f'"src_ip":"10.0.0.1","src_port":1000,"dest_ip":"10.0.0.2","dest_port":2000,"proto":"UDP",'
       f'"community_id":"1:{b64encode(FLOW).decode()}","alert":{{"action":"allowed","gid":1,"signature_id":1,"rev":0,'
       '"signature":"%s","category":"","severity":3}%s}\n')

def tool(name, *words, given=b"", eve=""):
    """The status, the output and the messages of a script, which leaves nothing to another snort_eve than the named one."""
    given = given.encode() if isinstance(given, str) else given
    env = {**os.environ, "SNORT_EVE": eve}
    env.pop("PYTHONUNBUFFERED", None)  # by which what it writes would be in order in any case
    ran = subprocess.run([sys.executable, f"{TOOLS}/{name}", *words], input=given, capture_output=True, timeout=600, env=env)
    return ran.returncode, ran.stdout.decode(), ran.stderr.decode()

def line_with(msg="t", classes="", protocol="UDP", ends="10.0.0.1:1000 -> 10.0.0.2:2000"):
    return f"{FIRST}{msg} [**] {classes}[Priority: 0] {{{protocol}}} {ends}"

FROM, TO = b"\x0a\0\0\1", b"\x0a\0\0\2"

def record_of(kind, body):
    return struct.pack(">II", kind, len(body)) + body

def event(kind=7, ends=(FROM, TO), ports=(1000, 2000), protocol=17, number=1, place=0, rest=(0, 0, 0), sid=1):
    body = struct.pack(">9I", 0, number, 0, 0, sid, 1, 0, place, 0) + b"".join(ends)
    return record_of(kind, body + struct.pack(">2H4B", *ports, protocol, *rest))

def packet(data, link=1, number=1):
    return struct.pack(">9I", 2, 28 + len(data), 0, number, 0, 0, 0, link, len(data)) + data

def read_records(data, rules=None):
    """The alerts of records, and what is told of them."""
    told = []
    return list(alerts.of_unified2(io.BytesIO(data), "u", rules or rule_texts.Rules(), told.append)), told
