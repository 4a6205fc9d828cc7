"""What is ahead of the payload in the bytes of a record, as the program reads it. Used by alerts, eve, report and carve.

Ethernet with at most two 802.1Q tags, Linux cooked and raw IP; IPv4, and IPv6 with at most eight extension headers
(RFC 791, section 3.1; RFC 8200, section 4); ports of TCP and UDP, type and code of ICMP. No checksum is verified, and a packet
of which the capture has only the first bytes has what is left of its payload: `is_whole` says whether nothing of it is missing
and its lengths agree, as the program wants it of a packet that it reads.
"""
from collections import namedtuple

# Addresses are bytes. `fragment` is None, or what the parts of a datagram have alike, and the offset; then the payload is all
# after the IP header. `pair` is both ports, or type and code of ICMP; None where the record doesn't have them.
Heads = namedtuple("Heads", "source target protocol fragment pair payload is_whole")
TCP, UDP, ICMP, ICMP6, FRAGMENT = 6, 17, 1, 58, 44
WITH_LENGTH = 0, 43, 60  # extension headers that have a length of their own
EXTENSIONS = *WITH_LENGTH, FRAGMENT
LINKS = {1: 14, 101: 0, 113: 16}  # link types that are read, and how long their headers are
MOST_TAGS, MOST_HEADERS = 2, 8

def ip_start(link, data):
    """Where the IP header begins, and the version that it should have; None where there is none."""
    at = LINKS.get(link)
    if at == 0:
        return (0, data[0] >> 4) if data else None
    if at is None:
        return None
    kind = data[at - 2:at]
    for _ in range(MOST_TAGS):
        if kind == b"\x81\0":
            at, kind = at + 4, data[at + 2:at + 4]
    version = {b"\x08\0": 4, b"\x86\xdd": 6}.get(kind)
    return version and (at, version)

def pair_of(protocol, data):
    """The ports of TCP and UDP, or the type and code of ICMP."""
    if protocol in (TCP, UDP) and len(data) >= 4:
        return data[0] << 8 | data[1], data[2] << 8 | data[3]
    if protocol in (ICMP, ICMP6) and len(data) >= 2:
        return data[0], data[1]
    return None

def after_transport(protocol, data):
    """The payload of a packet that is no fragment."""
    if protocol == TCP and len(data) >= 20:
        return data[4 * (data[12] >> 4):] if data[12] >> 4 >= 5 else b""
    if protocol == UDP and len(data) >= 8:
        return data[8:max(data[4] << 8 | data[5], 8)]
    if protocol in (TCP, UDP, ICMP, ICMP6):
        return data[8:] if protocol in (ICMP, ICMP6) else b""
    return data

def has_transport(protocol, data):
    """Whether the bytes after the IP headers have the header of their protocol, and it names no more than these."""
    if protocol == TCP:
        return len(data) >= 20 and 20 <= 4 * (data[12] >> 4) <= len(data)
    if protocol == UDP:
        return len(data) >= 8 and 8 <= (data[4] << 8 | data[5]) <= len(data)
    return len(data) >= 8 or protocol not in (ICMP, ICMP6)

def whole_or_part(source, target, protocol, foreign, part, body, is_there):
    """The heads of a packet; the protocol that is foreign to its IP version has no heads of its own."""
    own = None if protocol == foreign else protocol
    if part is None:
        is_whole = is_there and has_transport(own, body)
        return Heads(source, target, protocol, None, pair_of(own, body), after_transport(own, body), is_whole)
    return Heads(source, target, protocol, part, None if part[1] else pair_of(own, body), body, is_there)

def heads_of_4(data):
    head, total = 4 * (data[0] & 15), data[2] << 8 | data[3]
    if head < 20 or total < head or len(data) < head:
        return None
    protocol, source, target = data[9], data[12:16], data[16:20]
    fragment = (data[6] << 8 | data[7]) & 0x3FFF  # more fragments, and the offset
    part = ((source, target, protocol, data[4:6]), fragment & 0x1FFF) if fragment else None
    return whole_or_part(source, target, protocol, ICMP6, part, data[head:total], len(data) >= total)

def walk(data, following, at):
    """Over the extension headers: what follows them, where, and where the fragment header of a part of a datagram begins."""
    for _ in range(MOST_HEADERS):
        if following in WITH_LENGTH:
            following, at = data[at], at + 8 + 8 * data[at + 1]
        elif following == FRAGMENT:
            if (data[at + 2] << 8 | data[at + 3]) & 0xFFF9:
                return data[at], at + 8, at
            following, at = data[at], at + 8
        else:
            break
    return following, at, None

def heads_of_6(data):
    total = 40 + (data[4] << 8 | data[5])
    source, target, is_there, data = data[8:24], data[24:40], len(data) >= total, data[:total]
    protocol, at, fragment = walk(data, data[6], 40)
    if at > len(data):
        return None
    if fragment is None:
        return whole_or_part(source, target, protocol, ICMP, None, data[at:], is_there and protocol not in EXTENSIONS)
    part = (source, target, FRAGMENT, data[fragment + 4:fragment + 8]), (data[fragment + 2] << 8 | data[fragment + 3]) >> 3
    found = whole_or_part(source, target, protocol, ICMP, part, data[at:], is_there)
    if part[1] or protocol not in WITH_LENGTH:
        return found
    upper, begin, _ = walk(data, protocol, at)  # further headers are in the first part of a datagram
    return found._replace(protocol=upper, pair=pair_of(None if upper == ICMP else upper, data[begin:]))

def heads_of(link, data):
    """The heads of a record; None where the program reads no packet in it."""
    try:
        found = ip_start(link, data)
        if not found:
            return None
        at, version = found
        data = data[at:]
        if data[0] >> 4 != version or version not in (4, 6) or len(data) < (20 if version == 4 else 40):
            return None
        return heads_of_4(data) if version == 4 else heads_of_6(data)
    except IndexError:
        return None
