"""The packets of `--generate`, as text for tools/make_capture, worked out from their definition. Used by verify.

crates/pcap_input/README.md, "Captures that are made", has it: a number below k is the state divided by 65536, modulo k, once
the state x has become x * 1103515245 + 12345 modulo 2^31.
"""
import packets, verify_captures as captures

RULES = [b'alert tcp any any -> any 80 (msg:"in a packet"; content:"attack"; gid:4294967291; sid:1;)',
         b'alert tcp any any -> any 80 (msg:"in a stream"; content:"attack"; flow:only_stream; gid:4294967291; sid:2;)',
         b'alert udp any any -> any 53 (msg:"a name"; content:"gen-1"; gid:4294967291; sid:3;)']

def texts(seed, count):
    """The packets as text."""
    state, steps, sent = seed, [0] * 16, [0] * 16
    def below(limit):
        nonlocal state
        state = (state * 1103515245 + 12345) % 2**31
        return state // 65536 % limit
    for _ in range(count):
        if below(4) == 0:
            yield f'udp 10.1.0.{1 + below(16)}:1024 > 10.2.0.2:53 "gen-{below(1000)}"'
            continue
        session = below(16)
        client, server, first = f"10.1.0.{1 + session}:{40000 + session}", "10.2.0.1:80", 1000 * session
        step, steps[session] = steps[session], steps[session] + 1 if steps[session] < 4 else 3
        if step == 0:
            yield f"tcp {client} > {server} flags=S seq={first} ack=0"
        elif step == 1:
            yield f"tcp {server} > {client} flags=SA seq=500000 ack={first + 1}"
        elif step == 2:
            yield f"tcp {client} > {server} flags=A seq={first + 1} ack=500001"
        elif step == 3:
            has_word, data = below(50) == 0, "".join(chr(97 + below(26)) for _ in range(64))
            text = "attack" + data[6:] if has_word else data
            yield f'tcp {client} > {server} flags=PA seq={(first + 1 + sent[session]) % 2**32} ack=500001 "{text}"'
            sent[session] += 64
        else:
            yield f"tcp {server} > {client} flags=A seq=500001 ack={(first + 1 + sent[session]) % 2**32}"

def records(seed, count):
    """The same as records, one each millisecond; a datagram has no checksum."""
    out = []
    for number, text in enumerate(texts(seed, count)):
        frame = packets.packet(text)
        frame = frame[:40] + b"\0\0" + frame[42:] if text.startswith("udp") else frame
        out.append(captures.record(number * 10**6, captures.ETHERNET, frame))
    return out
