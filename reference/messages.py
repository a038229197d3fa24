#!/usr/bin/env python3
"""The format of messages a second time. Every section is a list of numbers of one width, those of head and seed being bytes, and a list is
packed as one big integer, whose digits to the base 2^width are the numbers of the list, the first one lowest. Shares nothing with the proved code.

    python3 reference/messages.py lines               # the input of the program `sections`: a kind, a space and a message on each line
    python3 reference/messages.py sections < input    # what the program prints for such an input
    python3 reference/messages.py check               # checks this file
"""
import re
import sys
from hashlib import shake_128

from definitions import RECONCILERS, SETS

KINDS = {"offer": 1, "answer": 2, "confirmation": 3}
PROFILES = [(numbers, reconciler) for numbers in SETS for reconciler in RECONCILERS]
HEAD, SEED, VALUES, SIGNALS = "head", "seed", "rounded values", "signals"
COUNT = 2


class Refused(Exception):
    """Its arguments are the layer, the number and the place of a fault."""


# Packing


def size(count, width):
    """How many bytes so many numbers of so many bits take."""
    return (count * width + 7) // 8


def pack(numbers, width, space):
    """The bytes of a list, for an output of so many bytes."""
    if space != size(len(numbers), width):
        raise Refused(1, 1, 4)
    for i, number in enumerate(numbers):
        if number >= 2**width:
            raise Refused(1, 2, i)
    return sum(number << i * width for i, number in enumerate(numbers)).to_bytes(space, "little")


def unpack(contents, width, count):
    """The list of so many numbers whose bytes these are; spare bits are not looked at."""
    if len(contents) != size(count, width):
        raise Refused(1, 1, 1)
    whole = int.from_bytes(contents, "little")
    return [(whole >> i * width) % 2**width for i in range(count)]


# Messages


def degree(profile):
    return SETS[profile[0]][1]


def profile_bytes(profile):
    return bytes([SETS[profile[0]][0], RECONCILERS[profile[1]][0]])


def layout(kind, profile):
    """The sections of a message and its length. A section is its name, the offset where its contents start, and how many numbers of how
    many bits it holds."""
    n, width, signal_bits = degree(profile), SETS[profile[0]][4], RECONCILERS[profile[1]][2]
    head, seed, values, signals = (HEAD, 7, 8), (SEED, 16, 8), (VALUES, n, width), (SIGNALS, n, signal_bits)
    kinds = {"offer": [head, seed, values], "answer": [head, values, signals], "confirmation": [head]}
    sections, at = [], 0
    for name, count, width in kinds[kind]:
        sections.append((name, at + COUNT, count, width))
        at += COUNT + size(count, width)
    return sections, at


def write(kind, profile, link_round, parts, space):
    """The message of these parts, which are lists by name, for a buffer of so many bytes."""
    sections, length = layout(kind, profile)
    for place, name in (1, VALUES), (2, SIGNALS):
        if name in parts and len(parts[name]) != degree(profile):
            raise Refused(1, 1, place)
    if space != length:
        raise Refused(1, 1, 4)
    lists = {HEAD: bytes([KINDS[kind]]) + profile_bytes(profile) + link_round.to_bytes(4, "little"), **parts}
    message, seen = b"", 0
    for name, _, count, width in sections:
        for i, number in enumerate(lists[name]):
            if number >= 2**width:
                raise Refused(1, 2, seen + i)
        seen += count if name in (VALUES, SIGNALS) else 0
        many = size(count, width)
        message += many.to_bytes(COUNT, "little") + pack(lists[name], width, many)
    return message


def read(kind, profile, message):
    """The sections of a message that is read as this kind by this profile: name, offset, bytes and numbers of each."""
    sections, length = layout(kind, profile)
    wrong = [length] if len(message) > length else []
    for _, start, count, width in sections:
        many = size(count, width)
        if message[start - COUNT : start] != many.to_bytes(COUNT, "little"):
            wrong.append(start - COUNT)
        if len(message) < start + many:
            wrong.append(start)
    if wrong:
        raise Refused(2, 7, min(wrong))
    for offset, byte in enumerate(bytes([KINDS[kind]]) + profile_bytes(profile), 2):
        if message[offset] != byte:
            raise Refused(2, 8, offset)
    found = []
    for name, start, count, width in sections:
        end = start + size(count, width)
        if int.from_bytes(message[start:end], "little") >= 2 ** (count * width):
            raise Refused(2, 9, end - 1)
        found.append((name, start, message[start:end], unpack(message[start:end], width, count)))
    return found


# The program `sections`


def profile_of(message):
    """The house profile that the message names, or T with Ding."""
    named = [profile for profile in PROFILES if profile_bytes(profile) == message[3:5]]
    return named[0] if named else ("T", "Ding")


def printed(line):
    """What the program prints for a line of its input."""
    form = re.fullmatch("(offer|answer|confirmation) (([0-9a-f]{2})*)", line)
    if not form:
        sys.exit(f"not a kind, a space and lower-case hexadecimal: {line[:40]!r}")
    kind, message = form[1], bytes.fromhex(form[2])
    profile = profile_of(message)
    try:
        found = read(kind, profile, message)
    except Refused as refused:
        layer, fault, place = refused.args
        return [f"{kind} refused: layer {layer}, fault {fault} at {place}"]
    link_round = int.from_bytes(message[5:9], "little")
    output = [f"{kind} of {' with '.join(profile)}, round {link_round}"]
    for name, start, contents, numbers in found:
        listed = "".join(f" {number}" for number in numbers)
        output.append(f"  offset {start}: {name} {contents.hex()}" + (f":{listed}" if name in (VALUES, SIGNALS) else ""))
    return output


# Its input

EXAMPLE = [
    ("offer", {SEED: list(range(16)), VALUES: [24, 48, 1, 0]}),
    ("answer", {VALUES: [0, 24, 50, 1], SIGNALS: [0, 1, 0, 0]}),
    ("confirmation", {}),
]
ROUNDS = [0, 1, 258, 65536, 2**32 - 1]
LONG = [
    ("answer", ("W", "OKCN"), 258, {VALUES: [i * 61 % 16384 for i in range(256)], SIGNALS: [i % 4 for i in range(256)]}),
    ("offer", ("S", "Ding"), 2**32 - 1, {SEED: [255 - i for i in range(16)], VALUES: [i * 2749 % 4096 for i in range(512)]}),
]


def written(kind, profile, link_round, parts):
    return write(kind, profile, link_round, parts, layout(kind, profile)[1])


def example():
    return {kind: written(kind, ("T", "Ding"), 1, parts) for kind, parts in EXAMPLE}


def drawn(label, count, width):
    """Pseudo-random numbers, which are the same everywhere."""
    return unpack(shake_128(label.encode()).digest(size(count, width)), width, count)


def varied(kind, profile):
    """Parts for a message, each all zero, all largest, counting up or pseudo-random. Each number set has all four for its rounded values."""
    parts, index = {}, PROFILES.index(profile)
    for name, _, count, width in layout(kind, profile)[0][1:]:
        some = drawn(f"{kind} {index} {name}", count, width)
        fills = [[0] * count, [2**width - 1] * count, [i % 2**width for i in range(count)], some]
        parts[name] = fills[index % 2 + 2 * (kind == "answer") if name == VALUES else (index + 2) % 4]
    return parts


def with_byte(message, offset, byte):
    return message[:offset] + bytes([byte]) + message[offset + 1 :]


def accepted():
    """A message of each kind for each profile."""
    rows = []
    for profile in PROFILES:
        for kind in KINDS:
            link_round = ROUNDS[len(rows) % len(ROUNDS)]
            rows.append((kind, profile, written(kind, profile, link_round, varied(kind, profile))))
    return rows


def lines():
    """The kind that each message is read as, and the message."""
    three = example()
    offer, answer, confirmation = three["offer"], three["answer"], three["confirmation"]
    by_profile = {(kind, profile): message for kind, profile, message in accepted()}
    rows = list(three.items()) + [(kind, message) for (kind, _), message in by_profile.items()]
    # A round of four different bytes, and numbers of all sizes.
    rows += [("confirmation", written("confirmation", profile, 0x04030201, {})) for profile in PROFILES]
    rows += [(kind, written(kind, profile, link_round, parts)) for kind, profile, link_round, parts in LONG]
    # Cut in each section and each count.
    rows += [("offer", offer[:length]) for length in (0, 1, 2, 8, 9, 10, 11, 26, 29)]
    rows += [("answer", answer[:length]) for length in (13, 16)]
    # Each count off by one, and the upper byte of one.
    rows += [("offer", with_byte(offer, offset, offer[offset] + 1)) for offset in (0, 9, 27)]
    rows += [("answer", with_byte(answer, offset, answer[offset] - 1)) for offset in (9, 14)]
    rows += [("offer", with_byte(offer, 1, 1))]
    # One byte more.
    rows += [(kind, message + b"\0") for kind, message in three.items()]
    # Another byte for the kind, the numbers or the reconciler. Where the two name a house profile, that one is read by: the offer has too
    # few bytes for S, but the answer is one of T with OKCN, and the confirmation one of W.
    rows += [("offer", with_byte(offer, offset, byte)) for offset, byte in ((2, 2), (3, 0), (4, 3), (3, 2))]
    rows += [("answer", with_byte(answer, 4, 2)), ("confirmation", with_byte(confirmation, 3, 3))]
    # Each spare bit, and one behind a wrong kind.
    rows += [("answer", with_byte(answer, 16, answer[16] + 2**bit)) for bit in range(4, 8)]
    rows += [("answer", with_byte(with_byte(answer, 16, 0x82), 2, 1))]
    # All three bytes of the head wrong.
    rows += [("offer", with_byte(with_byte(with_byte(offer, 2, 2), 3, 0), 4, 3))]
    # Each kind read as each other.
    rows += [(kind, message) for kind in KINDS for other, message in three.items() if kind != other]
    # S and W: cut, one byte more, another kind.
    rows += [("offer", by_profile["offer", ("S", "Ding")][:-1]), ("answer", by_profile["answer", ("W", "OKCN")] + b"\0")]
    rows += [("offer", by_profile["answer", ("S", "OKCN")])]
    return rows


# Checks

# The bytes of each section, from the table of lengths in docs/PROFILES.md.
SIZES = {
    ("T", "Ding"): ([7, 16, 3], [7, 3, 1], [7]),
    ("T", "OKCN"): ([7, 16, 3], [7, 3, 1], [7]),
    ("S", "Ding"): ([7, 16, 768], [7, 768, 64], [7]),
    ("S", "OKCN"): ([7, 16, 768], [7, 768, 128], [7]),
    ("W", "Ding"): ([7, 16, 448], [7, 448, 32], [7]),
    ("W", "OKCN"): ([7, 16, 448], [7, 448, 64], [7]),
}


def fault(call, *arguments):
    """The fault of a call, or None where it is accepted."""
    try:
        call(*arguments)
    except Refused as refused:
        return refused.args
    return None


def from_left_to_right(message, sizes):
    """Fault 7 as a reader finds it who goes through the message once."""
    at = 0
    for many in sizes:
        if len(message) - at < 2 or message[at] + 256 * message[at + 1] != many:
            return 2, 7, at
        at += 2
        if len(message) - at < many:
            return 2, 7, at
        at += many
    return (2, 7, at) if len(message) > at else None


def check_packing():
    for width in range(1, 17):
        for count in [*range(41), 256, 512, 1024]:
            space = size(count, width)
            assert 8 * space - 7 <= count * width <= 8 * space or space == count == 0
            numbers = drawn(f"{width} {count}", count, width)
            largest = [2**width - 1] * count
            for those in numbers, largest, [0] * count:
                contents = pack(those, width, space)
                assert len(contents) == space and unpack(contents, width, count) == those
                for j in range(8 * space):
                    bit = those[j // width] >> j % width & 1 if j < count * width else 0
                    assert contents[j // 8] >> j % 8 & 1 == bit
            if count * width < 8 * space:
                spare = with_byte(contents, space - 1, contents[-1] | 0x80)
                assert unpack(spare, width, count) == those
            for i in range(min(count, 41)):
                beyond = numbers[:i] + [2**width] + numbers[i + 1 :]
                assert fault(pack, beyond, width, space) == (1, 2, i)
                assert fault(pack, numbers[:i] + [2**32 - 1] * (count - i), width, space) == (1, 2, i)
                assert fault(pack, beyond, width, space + 1) == (1, 1, 4)
            for other in {0, space - 1, space + 1, 2 * space} - {-1, space}:
                assert fault(pack, numbers, width, other) == (1, 1, 4)
                assert fault(unpack, bytes(other), width, count) == (1, 1, 1)


def check_example():
    """Byte by byte, with the numbers as bits, the last first."""
    round_1, seed = [1, 0, 0, 0], list(range(16))
    offer_values = [0b00011000, 0b0001_1100, 0b000000_00]  # 0, 1, 48 and 24 are 000000 000001 110000 011000
    answer_values = [0b00000000, 0b0010_0110, 0b000001_11]  # 1, 50, 24 and 0 are 000001 110010 011000 000000
    three = example()
    assert list(three["offer"]) == [7, 0, 1, 1, 1, *round_1, 16, 0, *seed, 3, 0, *offer_values]
    assert list(three["answer"]) == [7, 0, 2, 1, 1, *round_1, 3, 0, *answer_values, 1, 0, 0b0010]
    assert list(three["confirmation"]) == [7, 0, 3, 1, 1, *round_1]
    assert three["offer"].hex() == "0700010101010000001000000102030405060708090a0b0c0d0e0f0300181c00"
    assert three["answer"].hex() == "0700020101010000000300002607010002"
    assert three["confirmation"].hex() == "070003010101000000"
    expected = """\
offer of T with Ding, round 1
  offset 2: head 01010101000000
  offset 11: seed 000102030405060708090a0b0c0d0e0f
  offset 29: rounded values 181c00: 24 48 1 0
answer of T with Ding, round 1
  offset 2: head 02010101000000
  offset 11: rounded values 002607: 0 24 50 1
  offset 16: signals 02: 0 1 0 0
confirmation of T with Ding, round 1
  offset 2: head 03010101000000"""
    assert [row for kind, message in three.items() for row in printed(f"{kind} {message.hex()}")] == expected.split("\n")
    for kind, parts in EXAMPLE:
        lists = {name: numbers for name, _, _, numbers in read(kind, ("T", "Ding"), three[kind])}
        assert lists == {HEAD: list(three[kind][2:9]), **parts}


def check_writing():
    for kind, profile, message in accepted():
        n, width, bits = degree(profile), SETS[profile[0]][4], RECONCILERS[profile[1]][2]
        parts = varied(kind, profile)
        sizes = SIZES[profile][KINDS[kind] - 1]
        assert len(message) == sum(2 + many for many in sizes)
        at = 0
        for (name, start, contents, numbers), many in zip(read(kind, profile, message), sizes, strict=True):
            assert start == at + 2 and contents == message[start : start + many] and numbers == parts.get(name, numbers)
            at = start + many
        for link_round in ROUNDS:
            rest = written(kind, profile, link_round, parts)
            assert rest[5:9] == bytes(link_round >> 8 * i & 255 for i in range(4))
            assert rest[:5] + rest[9:] == message[:5] + message[9:]
        for space in 0, len(message) - 1, len(message) + 1:
            assert fault(write, kind, profile, 1, parts, space) == (1, 1, 4)
        lists = [name for name in parts if name != SEED]
        for name in lists:
            place, over, first = {VALUES: (1, 2**width, 0), SIGNALS: (2, 2**bits, n)}[name]
            for other in [], parts[name][:-1], parts[name] + [0]:
                for space in len(message), len(message) + 1:
                    assert fault(write, kind, profile, 1, {**parts, name: other}, space) == (1, 1, place)
            for i in {0, 1, n // 2, n - 1}:
                wrong = {**parts, name: parts[name][:i] + [over] * (n - i)}
                assert fault(write, kind, profile, 1, wrong, len(message)) == (1, 2, first + i)
                assert fault(write, kind, profile, 1, wrong, len(message) + 1) == (1, 1, 4)
        if kind == "answer":
            assert fault(write, kind, profile, 1, {VALUES: [], SIGNALS: []}, 0) == (1, 1, 1)
            both = {VALUES: [2**width] * n, SIGNALS: [2**bits] * n}
            assert fault(write, kind, profile, 1, both, len(message)) == (1, 2, 0)


def check_reading():
    three = example()
    short = [0, 0, 2, 2, 2, 2, 2, 2, 2, 9, 9] + [11] * 16 + [27, 27] + [29] * 3
    assert [fault(read, "offer", ("T", "Ding"), three["offer"][:m]) for m in range(32)] == [(2, 7, place) for place in short]
    short = [0, 0, 2, 2, 2, 2, 2, 2, 2, 9, 9, 11, 11, 11, 14, 14, 16]
    assert [fault(read, "answer", ("T", "Ding"), three["answer"][:m]) for m in range(17)] == [(2, 7, place) for place in short]
    for (kind, message), place in zip(three.items(), (32, 17, 9)):
        assert [fault(read, kind, ("T", "Ding"), message + bytes(m)) for m in range(1, 9)] == [(2, 7, place)] * 8
        for offset in 2, 3, 4:
            for byte in set(range(256)) - {message[offset]}:
                wrong = with_byte(message, offset, byte)
                assert fault(read, kind, ("T", "Ding"), wrong) == (2, 8, offset)
                assert fault(read, kind, ("T", "Ding"), with_byte(wrong, 4, 0)) == (2, 8, offset)
                assert fault(read, kind, ("T", "Ding"), wrong + b"\0") == (2, 7, place)
    for byte in range(256):
        spare = with_byte(three["answer"], 16, byte)
        assert fault(read, "answer", ("T", "Ding"), spare) == ((2, 9, 16) if byte > 15 else None)
        assert fault(read, "answer", ("T", "Ding"), with_byte(spare, 4, 2)) == (2, 8, 4)
        assert fault(read, "answer", ("T", "OKCN"), with_byte(spare, 4, 2)) is None
    for kind, profile, message in accepted():
        sizes = SIZES[profile][KINDS[kind] - 1]
        for length in range(len(message)):
            place = from_left_to_right(message[:length], sizes)
            assert place and fault(read, kind, profile, message[:length]) == place
            damaged = with_byte(message, length, message[length] ^ 1)
            place = from_left_to_right(damaged, sizes) or ((2, 8, length) if length in (2, 3, 4) else None)
            assert fault(read, kind, profile, damaged) == place
        at = 0
        for many in sizes:
            for other in {0, many - 1, many + 1, many + 256, many * 256, 65535} - {many}:
                wrong = message[:at] + (other % 65536).to_bytes(2, "little") + message[at + 2 :]
                for end in [len(message), at + 2]:
                    assert fault(read, kind, profile, wrong[:end]) == (2, 7, at)
                assert fault(read, kind, profile, with_byte(wrong, 2, 0) + b"\0") == (2, 7, at)
            at += 2 + many
        for other in set(KINDS) - {kind}:
            assert fault(read, other, profile, message) == (2, 7, 9)
        for other in PROFILES:
            sizes = SIZES[other][KINDS[kind] - 1]
            differ = [(2, 8, offset) for offset, own, byte in zip((3, 4), profile_bytes(other), profile_bytes(profile)) if own != byte]
            assert fault(read, kind, other, message) == (from_left_to_right(message, sizes) or (differ or [None])[0])


def check_lines():
    """The places of the refusals in the input of the program, in its order."""
    refused = []
    for kind, message in lines():
        output = printed(f"{kind} {message.hex()}")
        refused += [tuple(map(int, output[0].split(" fault ")[1].split(" at ")))] if " refused: layer 2," in output[0] else []
    cut = [0, 0, 2, 2, 9, 9, 11, 11, 29, 11, 16]
    counts = [0, 9, 27, 9, 14, 0]
    more = [32, 17, 9]
    assert refused == (
        [(7, place) for place in cut + counts + more] + [(8, 2), (8, 3), (8, 4), (7, 27)] + [(9, 16)] * 4 + [(8, 2)] * 2
        + [(7, 9)] * 6 + [(7, 29), (7, 525), (7, 9)]
    )


def main(command):
    if command == "lines":
        for kind, message in lines():
            print(kind, message.hex())
    elif command == "sections":
        for line in sys.stdin:
            print("\n".join(printed(line.removesuffix("\n"))))
    elif command == "check":
        for part in check_packing, check_example, check_writing, check_reading, check_lines:
            part()
        print("all checks passed")
    else:
        sys.exit(__doc__)


if __name__ == "__main__":
    main(sys.argv[1] if len(sys.argv) == 2 else "")
