"""The Python package cryptography as a peer: python_cryptography.py KIND reads lines of cases as tests/peers/cases.c prints them,
and holds each to what the package makes of it. Its key wrap is written in Python, over OpenSSL's AES; its CBC is OpenSSL's, and the
transport packets around it are taken apart here. Prints a line for each case that differs, and last its name and how many cases it
compared. Fails where any differs or cannot be read.

python_cryptography.py stream CLEAR SCRAMBLED PIPES even|odd holds the packets of a scrambled stream to those of the clear one in
the same way; PIPES is a pipes file of the desk tool."""

import collections
import sys

import cryptography
from cryptography.hazmat.primitives.ciphers import Cipher, algorithms, modes
from cryptography.hazmat.primitives.keywrap import InvalidUnwrap, aes_key_unwrap, aes_key_wrap


def unwrapped(key, wrapped):
    """The key data, or None where it is refused."""
    try:
        return aes_key_unwrap(key, wrapped)
    except InvalidUnwrap:
        return None


def hold_wrap(key, data, wrapped):
    """KEY DATA WRAPPED, or KEY - DAMAGED: of which sort it was, and what differs."""
    if data is None:
        return ["damaged"], [] if unwrapped(key, wrapped) is None else ["what is damaged is unwrapped"]
    faults = []
    if aes_key_wrap(key, data) != wrapped:
        faults.append("the key data has another wrap")
    if unwrapped(key, wrapped) != data:
        faults.append("the wrap has other key data, or none")
    return ["wraps"], faults


def payload_start(packet, code):
    """Where the payload begins, 188 where there is none, or None where code and length of the adaptation field do not fit."""
    length = packet[4]
    if code == 0b01:
        return 4
    if code == 0b10 and length == 183 or code == 0b11 and length <= 182:
        return 5 + length
    return None


def outcome(pipes, packet, parity):
    """What is made of a packet by scrambling in a parity, 0b10 or 0b11, or by descrambling, for which it is None: another packet,
    or the number of the reply that refuses it, as one byte."""
    word = int.from_bytes(packet[:4], "big")
    pid, bits, code = word >> 8 & 0x1FFF, word >> 6 & 3, word >> 4 & 3
    if pid not in pipes:
        return packet
    start = payload_start(packet, code)
    if start is None:
        return bytes([21])
    end = 188 - (188 - start) % 16
    if parity is not None and bits != 0b00 or parity is None and (bits == 0b01 or bits != 0b00 and start == end):
        return bytes([23])
    if start == end or parity is None and bits == 0b00:
        return packet
    even, odd, starting_block = pipes[pid]
    cipher = Cipher(algorithms.AES(odd if (parity or bits) == 0b11 else even), modes.CBC(starting_block))
    run = cipher.decryptor() if parity is None else cipher.encryptor()
    fourth = packet[3] & 0x3F | (parity or 0) << 6
    return packet[:3] + bytes([fourth]) + packet[4:start] + run.update(packet[start:end]) + run.finalize() + packet[end:]


def sort_of(packet, made):
    return "refused" if len(made) == 1 else "copied" if made == packet else "changed"


class Packets:
    """PIPES, or PACKET EVEN ODD CLEAR: of which sorts the three outcomes are, and what differs."""

    WAYS = {"scrambled even": 0b10, "scrambled odd": 0b11, "descrambled": None}

    def __call__(self, first, *outcomes):
        if not outcomes:
            pipes = [first[at : at + 82] for at in range(0, 7 * 82, 82)]
            self.pipes = {int.from_bytes(p[:2], "big"): (p[2:34], p[34:66], p[66:82]) for p in pipes}
            return [], [] if len(first) == 7 * 82 and len(self.pipes) == 7 else ["not a list of seven pipes"]
        if len(first) != 188 or len(outcomes) != 3:
            raise ValueError
        expected = {way: outcome(self.pipes, first, parity) for way, parity in self.WAYS.items()}
        faults = [f"{way}, another outcome" for way, given in zip(expected, outcomes) if given != expected[way]]
        return [sort_of(first, made) for made in expected.values()], faults


# What holds a case of each kind, and the sorts of cases that it has.
KINDS = {"wrap": (hold_wrap, ("wraps", "damaged")), "packet": (Packets(), ("changed", "copied", "refused"))}


def hold_lines(kind):
    hold, sorts = KINDS[kind]
    counts = collections.Counter()
    status = 0
    for number, line in enumerate(sys.stdin, 1):
        if line.startswith("#"):
            continue
        try:
            found, faults = hold(*(None if field == "-" else bytes.fromhex(field) for field in line.split()))
            counts.update(found)
        except (AttributeError, TypeError, ValueError):
            faults = ["not a case"]
        for fault in faults:
            print(f"line {number}: {fault}")
            status = 1
    finish(counts, sorts)
    return status


def hold_stream(clear, scrambled, pipes, parity):
    with open(pipes, encoding="ascii") as lines:
        rows = [line.split() for line in lines if line.strip() and not line.startswith("#")]
    pipes = {int(row[0], 16): tuple(map(bytes.fromhex, row[1:])) for row in rows}
    with open(clear, "rb") as before, open(scrambled, "rb") as after:
        before, after = before.read(), after.read()
    counts = collections.Counter()
    status = 0 if len(before) == len(after) else 1
    for at in range(0, len(before), 188):
        packet = before[at : at + 188]
        expected = outcome(pipes, packet, {"even": 0b10, "odd": 0b11}[parity])
        counts[sort_of(packet, expected)] += 1
        if after[at : at + 188] != expected:
            print(f"packet {at // 188}: scrambled {parity}, another outcome")
            status = 1
    finish(counts, ("changed", "copied"))
    return status


def finish(counts, sorts):
    print(f"cryptography {cryptography.__version__}: " + ", ".join(f"{counts[sort]} {sort}" for sort in sorts))


sys.exit(hold_stream(*sys.argv[2:]) if sys.argv[1] == "stream" else hold_lines(sys.argv[1]))
