"""Rules that are made of what is in a capture: most of them match, or miss by one. Used by verify.

docs/manual/rules.md and the pages below it say what each option means.
"""
import ipaddress

from verify_payloads import OFF, Payload

FLAG_LETTERS = "FSRPAU"
SIDES, SIGNS = ("client", "server", "both", "either"), ("<", ">", "=", "!=", "<=", ">=")
PROTOCOL_NUMBERS = {"tcp": 6, "udp": 17, "icmp": 1}
BITS = ("asked", "b.2", "c_-", "d")
MESSAGES = ("t", "login seen", "a; b", '\\"x\\"', "[1:2:3] {UDP}")
CLASSES = ("attack-class", "other-class")

def networks(rng, address):
    """Lists of addresses that contain this one, or nearly do."""
    most = address.max_prefixlen
    size = rng.choice((most, most, most - 1, most - 8, most // 2, 0))
    net = ipaddress.ip_network((int(address), size), strict=False)
    near = ipaddress.ip_address(int(address) ^ 1) if address.version == 4 else ipaddress.IPv6Address(int(address) ^ 1)
    other = "10.9.0.0/16" if address.version == 4 else "2001:db8:9::/48"
    return rng.choice(("any",) * 6 + (str(net), str(address), f"[{net},{other}]", f"[{other},[{address}]]", f"!{near}", f"![{other},{near}]",
                                      f"[{net},!{near}]", "$HOME_NET", "$EXTERNAL_NET", "$(ANY_NET:-any)"))

def ports(rng, port):
    if rng.random() < 0.55:
        return "any"
    port = min(max(port + (rng.choice((-1, 1)) if rng.random() < 2 * OFF else 0), 0), 65535)
    return rng.choice((str(port), f"{port}:", f":{port}", f"{max(0, port - 1)}:{port}", f"[{port},7,9:11]", f"!{65535 - port}",
                       f"[1:,!{port ^ 1}]", "$HTTP_PORTS", f"![7,{65535 - port}]"))

class RuleMaker:
    """The rules of a case, for items of its capture; `settings` says which sessions and datagrams there are."""
    def __init__(self, rng, items, settings):
        self.rng, self.items, self.settings = rng, items, settings

    def value(self, number, most=2**32 - 1):
        number += self.rng.choice((-1, 1)) if self.rng.random() < 2 * OFF else 0
        return min(max(number, 0), most)

    def compared(self, number, signs=("", "<", ">")):
        """A number with a sign, so that this one fits."""
        sign = self.rng.choice(signs)
        by = {"<": 1, ">": -1}.get(sign, 0)
        return f"{sign}{self.value(number + by) if sign != '!' else self.value(number ^ 1)}"

    # --- Options of one field each: what fits an item, or None

    def dsize(self, item):
        size = len(item.data)
        return self.rng.choice((f"dsize:{self.value(size, 65535)}", f"dsize:<{self.value(size + 1, 65535)}",
                                f"dsize:>{self.value(max(0, size - 1), 65535)}",
                                f"dsize:{self.value(max(0, size - 2), 65535)}<>{self.value(size, 65535)}"))

    def ttl(self, item):
        ttl = item.fields["ttl"]
        return "ttl:" + self.rng.choice((f"{self.value(ttl)}", f"={self.value(ttl)}", f"<{self.value(ttl + 1)}", f">{self.value(ttl - 1)}",
                                         f"<={self.value(ttl)}", f">={self.value(ttl)}", f"{self.value(ttl - 1)}-{self.value(ttl)}",
                                         f"-{self.value(ttl)}", f"{self.value(ttl)}-"))

    def tos(self, item):
        return f"tos:{self.compared(item.fields['tos'], ('', '!'))}"

    def id(self, item):
        return f"id:{self.value(item.fields['id'] if item.source[0].version == 4 or item.kind != 'packet' else 0)}"

    def ip_proto(self, item):
        number = item.fields.get("protocol", PROTOCOL_NUMBERS.get(item.protocol, 253))
        if item.protocol == "icmp" and item.source[0].version == 6:
            number = 58
        names = [name for name, known in PROTOCOL_NUMBERS.items() if known == number] + ["igmp"] * (number == 2)
        return "ip_proto:" + (self.rng.choice(names) if names and self.rng.random() < 0.4 else self.compared(number, ("", "!", "<", ">")))

    def sameip(self, item):
        return "sameip" if item.source[0] == item.target[0] else None

    def fragbits(self, item):
        has = {"M": "more" in item.fields, "D": "df" in item.fields and item.source[0].version == 4,
               "R": "reserved" in item.fields and item.source[0].version == 4}
        letters = [it for it, is_set in has.items() if is_set]
        if not letters:
            return "fragbits:" + self.rng.choice(("!M", "!MDR", "D!"))
        return "fragbits:" + self.rng.choice(("".join(letters), "+" + letters[0], "*" + "MDR", letters[0] + "*", "!" + letters[0]))

    def fragoffset(self, item):
        return f"fragoffset:{self.compared(item.fields.get('offset', 0) // 8, ('', '!', '<', '>'))}"

    def flags(self, item):
        if "flags" not in item.fields:
            return None
        is_set = [it for at, it in enumerate(FLAG_LETTERS) if item.fields["flags"] >> at & 1]
        clear = [it for it in FLAG_LETTERS if it not in is_set]
        exact = "".join(is_set) or "0"
        one = self.rng.choice(is_set or ["A"])
        return "flags:" + self.rng.choice((exact, exact + ",12", f"+{one}", f"{one}*F", f"!{self.rng.choice(clear)}", exact + ",CE",
                                           "".join(is_set[1:]) + "," + one if len(is_set) > 1 else exact, "0"))

    def tcp_number(self, item):
        name = self.rng.choice(("seq", "ack", "window"))
        if name not in item.fields:
            return None
        return f"{name}:{self.compared(item.fields[name], ('', '!') if name == 'window' else ('',))}"

    def icmp_number(self, item):
        if item.protocol != "icmp" or item.kind != "packet":
            return None
        name, field = self.rng.choice((("itype", "type"), ("icode", "code"), ("icmp_id", "icmp_id"), ("icmp_seq", "icmp_seq")))
        return f"{name}:{self.compared(item.fields[field], ('', '<', '>') if name in ('itype', 'icode') else ('',))}"

    FIELDS = [dsize, ttl, tos, id, ip_proto, sameip, fragbits, fragoffset, flags, flags, tcp_number, tcp_number, icmp_number, icmp_number]

    def fields(self, item, count):
        ways = [RuleMaker.ip_proto, RuleMaker.sameip] if item.kind == "stream" else self.FIELDS
        made = {}
        for _ in range(count):
            if option := self.rng.choice(ways)(self, item):
                made.setdefault(option.partition(":")[0], option)
        return list(made.values())

    # --- Options of sessions

    def flow(self, item):
        rng, out = self.rng, []
        if rng.random() < 0.5:
            out.append(rng.choice(("established", "established", "not_established", "stateless")))
        if rng.random() < 0.4:
            out.append(rng.choice(("to_server", "from_client", "to_client", "from_server")))
        if rng.random() < 0.4:
            out.append("only_stream" if item.kind == "stream" else "no_stream" if rng.random() < 0.8 else "only_stream")
        if rng.random() < 0.3:
            out.append("only_frag" if item.kind == "datagram" else "no_frag" if rng.random() < 0.8 else "only_frag")
        rng.shuffle(out)
        return [f"flow:{','.join(out)}"] if out else []

    def session(self, item):
        """Options that act on sessions, or ask for what they are."""
        rng, out = self.rng, []
        if rng.random() < 0.45:
            out += self.flow(item)
        if self.settings["bits"] and rng.random() < 0.4:
            out.append("flowbits:" + rng.choice(("set", "set", "unset", "toggle", "isset", "isset", "isnotset")) + "," + rng.choice(BITS))
            out += ["flowbits:noalert"] if rng.random() < 0.25 else []
        if item.protocol == "tcp" and rng.random() < 0.08:
            out.append(f"stream_size:{rng.choice(SIDES)},{rng.choice(SIGNS)},{rng.choice((0, 1, 5, 6, 30, 100, 300, 1200))}")
        if self.settings["bits"] and item.protocol == "tcp" and rng.random() < 0.1:
            out.append(f"stream_reassemble:{rng.choice(('enable', 'disable'))},{rng.choice(SIDES[:3])}{rng.choice(('', '', ',noalert'))}")
        if rng.random() < 0.08:
            out.append(f"detection_filter:track by_{rng.choice(('src', 'dst'))}, count {rng.choice((1, 2, 3))}, "
                       f"seconds {rng.choice((1, 2, 60))}")
        return out

    def said(self, sid):
        """What a rule says of itself."""
        rng = self.rng
        out = [f'msg:"{rng.choice(MESSAGES)}"'] if rng.random() < 0.8 else []
        out += [f"rev:{rng.choice((0, 1, 7, 4294967295))}"] if rng.random() < 0.4 else []
        out += [f"gid:{rng.choice((1, 2, 3, 4294967295))}"] if rng.random() < 0.15 else []
        out += [f"classtype:{rng.choice(CLASSES)}"] if rng.random() < 0.3 else []
        out += [f"priority:{rng.choice((0, 1, 3, 4294967295))}"] if rng.random() < 0.2 else []
        out += ["reference:url,example.org/a"] if rng.random() < 0.1 else []
        out += ["metadata:policy balanced, service http"] if rng.random() < 0.1 else []
        return [*out, f"sid:{sid}"]

    def header(self, item, is_plain):
        rng = self.rng
        action = "pass" if self.settings["passes"] and rng.random() < 0.04 else "alert"
        protocol = item.protocol if rng.random() < 0.6 else "ip"
        if is_plain:
            return f"{action} {protocol} any any -> any any"
        ends = [(networks(rng, it[0]), ports(rng, it[1])) for it in (item.source, item.target)]
        way = "->"
        if rng.random() < 0.15:
            way, ends = "<>", ends[::-1] if rng.random() < 0.5 else ends
        return f"{action} {protocol} {ends[0][0]} {ends[0][1]} {way} {ends[1][0]} {ends[1][1]}"

    def rule(self, sid):
        """A rule for an item: about its payload, its fields, its session, its ends, or several of these."""
        rng, item = self.rng, self.rng.choice(self.items)
        way, sizes = rng.random(), {"payload": 0, "fields": 0, "session": 0}
        if way < 0.4:
            sizes["payload"] = rng.choice((1, 1, 2, 2, 3, 4))
        elif way < 0.6:
            sizes["fields"] = rng.choice((1, 1, 2))
        elif way < 0.75:
            sizes.update(session=1, payload=rng.choice((0, 1)))
        elif way > 0.85:
            sizes = {"payload": rng.choice((0, 1, 2)), "fields": rng.choice((0, 1)), "session": rng.choice((0, 1))}
        payload = Payload(rng, item.data).drawn(sizes["payload"] if item.data else 0)
        others = [*self.fields(item, sizes["fields"]), *(self.session(item) if sizes["session"] else []), *self.said(sid)]
        rng.shuffle(others)
        cut = rng.randint(0, len(others))
        options = [*others[:cut], *payload, *others[cut:]]
        blank = " " if rng.random() < 0.9 else ""
        return f"{self.header(item, way < 0.75)} ({blank.join(it + ';' for it in options)})".encode("latin-1")

    def rules(self, count):
        return [self.rule(sid) for sid in range(1, count + 1)]
