"""The configuration and the captures of a user, as cases. Used by verify.

Files, includes and variables are read as docs/manual/configuration.md says, into one list of lines.
"""
import os
from collections import Counter

import verify_captures as captures
from rule_texts import MOST_DEEP, expand
from verify_bench import Case, Failed

WINDOW = 400  # records of a part of a capture

def joined_lines(name):
    """The lines of a file, those joined that end in a backslash, as text with a letter for each byte."""
    with open(name, "rb") as file:
        lines = [it.removesuffix("\r") for it in file.read().decode("latin-1").split("\n")]
    at = 0
    while at < len(lines):
        text = lines[at]
        while text.endswith("\\") and at + 1 < len(lines):
            at += 1
            text = text[:-1] + lines[at]
        at += 1
        yield text.strip(" \t")

def one_list(name, values, fixed, depth=0):
    """The lines of a configuration with those of its includes in their places."""
    for text in joined_lines(name):
        word, _, rest = text.replace("\t", " ").partition(" ")
        if word in ("var", "ipvar", "portvar"):
            key, _, value = rest.strip().partition(" ")
            if key not in fixed:
                values[key] = expand(value.strip(), values)
        if word == "include" and depth < MOST_DEEP:
            asked = expand(rest.strip(), values)
            path = asked if asked.startswith("/") else os.path.join(os.path.dirname(name), asked)
            yield from one_list(path, values, fixed, depth + 1)
        elif text and not text.startswith("#"):
            yield text.encode("latin-1")

def configuration(name, defined):
    """The lines of a configuration, with the variable that `-S` defines."""
    fixed = dict([defined.split("=", 1)] if defined else [])
    try:
        return list(one_list(name, dict(fixed), fixed))
    except OSError as fault:
        raise Failed(f"cannot read {fault.filename}: {fault.strerror}") from None

def host_lines(name):
    try:
        with open(name, "rb") as file:
            return file.read().split(b"\n")
    except OSError as fault:
        raise Failed(f"cannot read {name}: {fault.strerror}") from None

def parts_of(name, most):
    """The first records of a capture, at most that many, in a list for each link, since a classic file has one."""
    try:
        records = captures.read(name, most)
    except OSError as fault:
        raise Failed(f"cannot read {name}: {fault.strerror}") from None
    except captures.Unreadable as fault:
        raise Failed(f"cannot read {name}: {fault}") from None
    if any(not 0 <= it.moment < 2**32 * 10**9 for it in records):
        raise Failed(f"cannot read {name}: a moment has no place in a classic file")
    for it in records:
        if it.link not in (captures.ETHERNET, captures.RAW, captures.COOKED):
            raise Failed(f"cannot read {name}: it has link type {it.link}")
    return [[it for it in records if it.link == link] for link in Counter(it.link for it in records)]

def own_case(number, parts, lines, words, hosts, rng):
    """Case `number`: each part as a whole first, then records of one that follow each other."""
    if number < len(parts):
        return Case(lines, parts[number], words, hosts)
    part = rng.choice(parts)
    begin = rng.randrange(len(part))
    return Case(lines, part[begin:begin + rng.randint(1, WINDOW)], words, hosts)
