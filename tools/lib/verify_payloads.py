"""Options of rules that look at a payload, made out of it so that they match, or miss by one. Used by verify.

docs/manual/rules-content.md, rules-numbers.md and pcre.md say what each means. Where the generator draws a miss, one byte, one
bit, one place or one number of the rule is off.
"""
OFF = 0.05  # how often a number or a text misses by one
SIGNS = {"<": lambda a, b: a < b, ">": lambda a, b: a > b, "=": lambda a, b: a == b, "<=": lambda a, b: a <= b,
         ">=": lambda a, b: a >= b, "&": lambda a, b: a & b != 0}
DIGITS = {"dec": b"0123456789", "hex": b"0123456789abcdefABCDEF", "oct": b"01234567"}

def quoted(rng, data):
    """The bytes as a content writes them: some in hex digits between bars, some with a backslash."""
    out, is_hex = [], False
    for byte in data:
        plain = 32 <= byte < 127 and byte not in b'"\\|;'
        if not plain and byte in b'"\\|;' and rng.random() < 0.4 and not is_hex:
            out.append("\\" + chr(byte))
            continue
        wants_hex = not plain or rng.random() < 0.05
        if wants_hex != is_hex:
            out.append("|")
            is_hex = wants_hex
        out.append(rng.choice((f"{byte:02x}", f"{byte:02X}", f" {byte:02x}")) if is_hex else chr(byte))
    return "".join(out) + ("|" if is_hex else "")

def run_of_digits(data, base):
    """The number at the front of some bytes, or None."""
    end = 0
    while end < len(data) and data[end] in DIGITS[base]:
        end += 1
    return int(data[:end], {"dec": 10, "hex": 16, "oct": 8}[base]) if end else None

class Payload:
    """The options of a rule for one payload; `at` is the end of the previous match, `names` what byte_extract took."""
    def __init__(self, rng, data):
        self.rng, self.data, self.at, self.names, self.has_fast, self.has_content = rng, data, 0, {}, False, False

    # --- Numbers and texts, which miss by one now and then

    def number(self, value, least=0, most=65535):
        if self.rng.random() < OFF:
            value += self.rng.choice((-1, 1))
        return str(min(max(value, least), most))

    def number_or_name(self, value, least=0, most=65535):
        """A number, or a name with about this value."""
        fit = [name for name, known in self.names.items() if abs(known - value) <= (1 if self.rng.random() < 0.2 else 0)]
        return self.rng.choice(fit) if fit and self.rng.random() < 0.7 else self.number(value, least, most)

    def known(self, least, most):
        """A value that a name has, from one bound to another, or None."""
        fit = [it for it in self.names.values() if least <= it <= most]
        return self.rng.choice(fit) if fit and self.rng.random() < 0.7 else None

    def text(self, data):
        """The bytes of a content: some with a bit or a letter's case off."""
        if self.rng.random() < 2 * OFF:
            at = self.rng.randrange(len(data))
            data = data[:at] + bytes([data[at] ^ (1 << self.rng.randrange(8))]) + data[at + 1:]
        return data

    # --- Contents

    def contents(self):
        """A content with its modifiers, as a list of options."""
        rng, data = self.rng, self.data
        size = min(rng.choice((1, 1, 2, 3, 4, 5, 6, 7, 8, 12, 16, 24, 60)), max(len(data), 1))
        begin = rng.randint(0, len(data) - size) if len(data) >= size else 0
        if self.has_content and rng.random() < 0.6 and self.at + size <= len(data):
            begin = min(self.at + rng.choice((0, 0, 1, 2, 5, 20)), len(data) - size)
        found = data[begin:begin + size] or b"none"
        is_negated = rng.random() < 0.12
        shown = self.text(found) if not is_negated or rng.random() < 0.3 else found[:-1] + bytes([found[-1] ^ 1])
        mods = self.places(begin, len(shown))
        is_placed, is_free = bool(mods), True
        if rng.random() < 0.2:
            mods.append("nocase")
            shown = shown.swapcase() if rng.random() < 0.6 else shown
        if rng.random() < 0.04:
            mods.append("rawbytes")
        if not self.has_fast and rng.random() < 0.25 and (fast := self.fast_pattern(len(shown), is_placed, is_negated)):
            mods.append(fast)
            self.has_fast, is_free = True, not fast.endswith("only")
        rng.shuffle(mods)
        if not is_negated and is_free:
            self.at, self.has_content = begin + size, True
        return [f'content:{"!" if is_negated else ""}"{quoted(rng, shown)}"', *mods]

    def places(self, begin, size):
        """Modifiers by which a content lies at a place: of none, of two, or of one of two kinds."""
        rng, way, mods = self.rng, self.rng.random(), []
        if way < 0.35:
            return []
        if way < 0.65:
            from_ = self.known(0, begin) or rng.choice((begin, begin, max(0, begin - 1), 0, -3))
            if rng.random() < 0.8:
                mods.append(f"offset:{self.number_or_name(from_, -65535)}")
            else:
                from_ = 0
            if rng.random() < 0.7:
                room = begin + size - max(from_, 0) if from_ >= 0 else begin + size - from_
                room = self.known(max(room, size), 65535) or max(room, size) + rng.choice((0, 0, 0, 1, 9))
                mods.append(f"depth:{self.number_or_name(room, size)}")
            return mods
        gap = begin - self.at
        from_ = self.known(0, gap) or rng.choice((gap, gap, gap, gap - 1, min(gap, 0), gap - 5))
        if rng.random() < 0.8:
            mods.append(f"distance:{self.number_or_name(from_, -65535)}")
        else:
            from_ = 0
        if rng.random() < 0.7:
            room = max(gap - from_ + size, size)
            room = self.known(room, 65535) or room + rng.choice((0, 0, 0, 1, 9))
            mods.append(f"within:{self.number_or_name(room, size)}")
        return mods

    def fast_pattern(self, size, is_placed, is_negated):
        way = self.rng.random()
        if way < 0.3 and not is_placed and not is_negated:
            return "fast_pattern:only"
        if is_negated and is_placed:
            return None
        if way < 0.7:
            return "fast_pattern"
        begin = self.rng.randrange(size)
        return f"fast_pattern:{begin},{self.rng.randint(1, size - begin)}"

    def isdataat(self):
        is_relative, is_not = self.rng.random() < 0.5, self.rng.random() < 0.3
        left = len(self.data) - (self.at if is_relative else 0)
        value = self.known(*((left, 65535) if is_not else (0, left - 1)))
        if value is None:
            value = max(0, left) if is_not else max(0, left - 1 - self.rng.choice((0, 0, 1, 5)))
        words = [self.number_or_name(value), *(["relative"] if is_relative else []), *(["rawbytes"] if self.rng.random() < 0.1 else [])]
        return [f"isdataat:{'!' if is_not else ''}{','.join(words)}"]

    # --- Numbers of the payload

    def taken(self):
        """A number of the payload: where it begins and ends, its value (or None), the count, the offset, and the words."""
        rng, data, words = self.rng, self.data, []
        is_string, base = rng.random() < 0.35, rng.choice(("dec", "dec", "hex", "oct"))
        size = rng.choice((1, 1, 2, 3, 4, 6, 10) if is_string else (1, 1, 2, 2, 3, 4))
        begin = rng.randint(0, max(0, len(data) - size))
        if (told := self.known(0, len(data) - size)) is not None and rng.random() < 0.5:
            begin = told
        if is_string:
            fit = [at for at in range(max(0, len(data) - size) + 1) if data[at:at + 1] and data[at] in DIGITS[base]]
            begin = rng.choice(fit) if fit else begin
            value = run_of_digits(data[begin:begin + size], base)
            words += ["string"] + ([base] if base != "dec" or rng.random() < 0.3 else [])
        else:
            order = rng.choice(("big", "little", None, None))
            words += [order] if order else []
            value = int.from_bytes(data[begin:begin + size], order or "big")
        if begin + size > len(data):
            value = None
        is_relative = rng.random() < 0.45
        offset = begin - self.at if is_relative else begin
        rng.shuffle(words)
        words.insert(rng.randint(0, len(words)), "relative") if is_relative else None
        return begin, begin + size, value, size, self.number_or_name(offset, -65535), words

    def byte_test(self):
        _, _, value, size, offset, words = self.taken()
        rng, value = self.rng, value or 0
        sign, is_not = rng.choice(list(SIGNS)), rng.random() < 0.3
        tried = [value, value + 1, max(0, value - 1), value & -value, value ^ 1, ~value & 255, *4 * list(self.names.values())]
        fit = [it for it in tried if 0 <= it < 2**32 and SIGNS[sign](value, it) != is_not] or [min(value, 2**32 - 1)]
        shown = "!" if is_not and sign == "=" and rng.random() < 0.5 else ("!" if is_not else "") + sign
        return [f"byte_test:{','.join([str(size), shown, self.number_or_name(rng.choice(fit), 0, 2**32 - 1), offset, *words])}"]

    def byte_jump(self):
        begin, end, value, size, offset, words = self.taken()
        rng, jump = self.rng, value or 0
        if rng.random() < 0.3:
            factor = rng.choice((0, 1, 2, 3, 65535))
            words.append(f"multiplier {factor}")
            jump *= factor
        if rng.random() < 0.25:
            words.append("align")
            jump += -jump % 4
        start = end
        if rng.random() < 0.25:
            words.append("from_beginning")
            start = 0
        to = start + jump
        if not 0 <= to <= len(self.data) or rng.random() < 0.2:
            target = rng.choice((0, len(self.data), rng.randint(0, len(self.data))))
            if abs(target - to) <= 65535:
                words.append(f"post_offset {self.number(target - to, -65535)}")
                to = target
        if 0 <= to <= len(self.data):
            self.at, self.has_content = to, True
        rng.shuffle(words)
        return [f"byte_jump:{','.join([str(size), offset, *words])}"]

    def byte_extract(self):
        _, end, value, size, offset, words = self.taken()
        rng, name = self.rng, self.rng.choice(("size", "place_1"))
        value = value or 0
        if rng.random() < 0.25:
            factor = rng.choice((0, 1, 2, 3))
            words.append(f"multiplier {factor}")
            value *= factor
        if rng.random() < 0.2:
            align = rng.choice((2, 4))
            words.append(f"align {align}")
            value += -value % align
        rng.shuffle(words)
        self.names[name], self.at, self.has_content = value, end, True
        return [f"byte_extract:{','.join([str(size), offset, name, *words])}"]

    # --- Expressions

    def pcre(self):
        rng, data = self.rng, self.data
        begin = rng.randint(0, len(data))
        found = data[begin:begin + rng.choice((1, 2, 4, 8, 20))]
        flags = [it for it in "ismx" if rng.random() < 0.15]
        text = "".join(self.atom(it, "i" in flags) for it in self.text(found)) if found else "a?"
        if rng.random() < 0.25 and self.has_content and begin >= self.at:
            gap = begin - self.at
            text = "^" + (f"(?:.|\\n){{{self.number(gap)}}}" if gap else "") + text
            flags.append("R")
        elif rng.random() < 0.2:
            flags.append("R")
        elif begin == 0 and rng.random() < 0.5:
            text = "^" + text
        if begin + len(found) == len(data) and rng.random() < 0.3:
            text += "$"
        if rng.random() < 0.15:
            text += "|" + rng.choice(("zzz", "[0-9]{5}", "x+y*?z"))
        is_not = rng.random() < 0.15
        if not is_not and found:
            self.at, self.has_content = begin + len(found), True
        rng.shuffle(flags)
        return [f'pcre:{"!" if is_not else ""}"/{text}/{"".join(flags)}"']

    def atom(self, byte, is_nocase):
        """A part of an expression that matches this byte."""
        rng, letter = self.rng, chr(byte)
        plain = letter if letter.isalnum() and byte < 128 else f"\\x{byte:02x}"
        ways = [plain] * 5 + [f"\\x{byte:02x}", f"[{plain}]", f"({plain})", f"(?:{plain}|q)", f"{plain}+", f"{plain}{{1,3}}", f"{plain}+?"]
        if letter.isdecimal():
            ways += ["\\d", "[0-9]", "\\w"]
        elif letter.isalpha() and byte < 128:
            ways += ["\\w", "[a-z]" if letter.islower() else "[A-Z]", letter.swapcase() if is_nocase else plain]
        elif byte in b" \t\r\n":
            ways += ["\\s"]
        if byte != 10:
            ways += ["."]
        return rng.choice(ways)

    def drawn(self, count):
        """That many options, as a list with their modifiers."""
        ways = [self.contents] * 8 + [self.isdataat, self.byte_test, self.byte_test, self.byte_jump, self.pcre, self.pcre]
        out = []
        for _ in range(count):
            way = self.rng.choice([*ways, self.byte_extract] if len(self.names) < 2 else ways)
            out += way()
        return out
