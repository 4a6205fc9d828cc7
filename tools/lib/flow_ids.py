"""What names the flow of an alert: the community ID, version 1, by its specification, and a number. Used by eve.

Both are of the SHA-1 of a seed (two bytes), the smaller address and the larger one, the protocol, a zero, and the ports in the
order of the addresses; addresses that are alike are ordered by their ports. Both directions of a flow have the same.
"""
import struct
from binascii import b2a_base64
from hashlib import sha1

from alerts import ICMP, ICMP6, WITH_PORTS, packed

SCTP, NO_SEED = 132, b"\0\0"
PROTOCOLS, PAIR = [bytes([it, 0]) for it in range(256)], struct.Struct(">2H").pack
# Types of ICMP that ask, and those that answer: they are in the place of ports. What another type tells goes one way alone.
ASKED = {ICMP: {8: 0, 13: 14, 15: 16, 17: 18, 10: 9}, ICMP6: {128: 129, 133: 134, 135: 136, 130: 131, 139: 140, 144: 145}}
PAIRED = {protocol: {**asked, **{answer: it for it, answer in asked.items()}} for protocol, asked in ASKED.items()}

def hash_of(seed, source, target, protocol, here=0, there=0, has_pair=True, is_one_way=False):
    """The hash of a flow with two ports, or what is in their place, or without."""
    first, second = packed(source), packed(target)
    if (second, there) < (first, here) and not is_one_way:
        first, second, here, there = second, first, there, here
    return sha1(seed + first + second + PROTOCOLS[protocol] + (PAIR(here, there) if has_pair else b"")).digest()

def community_id(digest):
    return "1:" + b2a_base64(digest, newline=False).decode()

def flow_id(digest):
    """A number that is exact also where numbers are floating: its first 48 bits."""
    return int.from_bytes(digest[:6], "big")

def ids_of(protocol, source, sport, target, dport, icmp, seed):
    """The number of an alert's flow and its community ID; None where the alert doesn't tell what it is made of."""
    if protocol in WITH_PORTS:
        if sport is None:  # a fragment
            return None, None
        digest = hash_of(seed, source, target, protocol, sport, dport)
        plain = digest if seed == NO_SEED else hash_of(NO_SEED, source, target, protocol, sport, dport)
        return flow_id(plain), community_id(digest)
    number = flow_id(hash_of(NO_SEED, source, target, protocol, has_pair=False))
    if protocol in PAIRED and icmp:
        kind, code = icmp
        other = PAIRED[protocol].get(kind)
        return number, community_id(hash_of(seed, source, target, protocol, kind, code if other is None else other,
                                            is_one_way=other is None))
    if protocol in PAIRED or protocol == SCTP:
        return number, None
    return number, community_id(hash_of(seed, source, target, protocol, has_pair=False))
