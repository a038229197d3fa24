#!/usr/bin/env python3
"""Calls of packing and of messages, and what is expected of them: the input and the output of crates/message_tests. It is computed by
messages.py, which shares nothing with the proved code.

    python3 reference/calls.py lines                 # the input
    python3 reference/calls.py outcomes < input      # what the program prints for such an input

A line of the input is one of these. Bytes are in hexadecimal, and a list is its numbers with commas between them, where 7*3 is 7,7,7; `-`
is an empty one. A room is the length of the buffer that the call is given. An edit is 2=ff, the byte ff at offset 2, or +00, a byte after
the last.

    # words                                          a comment
    width BITS                                       is it one?
    pack WIDTH LIST ROOM
    unpack WIDTH BYTES ROOM
    hexadecimal WORD BYTES ROOM                      a line of hexadecimal
    message BYTES                                    the message that is read by the lines after it
    PROFILE offer ROUND SEED VALUES ROOM             writing
    PROFILE answer ROUND VALUES SIGNALS ROOM
    PROFILE confirmation ROUND ROOM
    PROFILE read KIND EDITS                          reading
    PROFILE cuts KIND EDITS                          reading the first 0, 1, 2, .. bytes, up to all
    PROFILE bytes KIND OFFSET EDITS                  reading with each of 0 .. 255 at an offset
"""
import sys

from messages import (
    EXAMPLE, KINDS, LONG, PROFILES, SEED, SIGNALS, SIZES, VALUES, Refused, degree, example, layout, pack, read, size, unpack, with_byte,
    write, written,
)
from definitions import RECONCILERS, SETS

BEYOND = 2**32 - 1
NAMES = {"-".join(profile): profile for profile in PROFILES}


# What is expected


def byte_list(word):
    return b"" if word == "-" else bytes.fromhex(word)


def number_list(word):
    numbers = []
    for item in [] if word == "-" else word.split(","):
        number, _, many = item.partition("*")
        numbers += [int(number)] * int(many or 1)
    return numbers


def told(refused):
    layer, number, place = refused.args
    return f"layer {layer}, fault {number} at {place}"


def filled(call, *arguments):
    """The buffer that a call fills, or why it leaves it."""
    try:
        return call(*arguments)
    except Refused as refused:
        return told(refused) + ", buffer kept"


def hexadecimal_line(word, shown, room):
    line = word.encode() + b" " + shown.hex().encode() + b"\n"
    if len(line) != room:
        raise Refused(1, 1, 4)
    return line


def outcome_of_reading(kind, profile, message):
    try:
        read(kind, profile, message)
        return "accepted"
    except Refused as refused:
        return told(refused)


def runs(outcomes):
    """The outcomes that differ from the one before, each with where it begins."""
    first = [at for at, outcome in enumerate(outcomes) if at == 0 or outcomes[at - 1] != outcome]
    return "".join(f" | from {at}: {outcomes[at]}" for at in first)


def edited(message, edits):
    for edit in edits:
        if edit.startswith("+"):
            message += byte_list(edit[1:])
        else:
            offset, digits = edit.split("=")
            for i, byte in enumerate(byte_list(digits), int(offset)):
                message = with_byte(message, i, byte)
    return message


PARTS = {
    "offer": {SEED: byte_list, VALUES: number_list}, "answer": {VALUES: number_list, SIGNALS: number_list}, "confirmation": {},
}


def by_profile(profile, call, words, message):
    if call in KINDS:
        link_round, *lists, room = words
        parts = {name: list(listed(word)) for (name, listed), word in zip(PARTS[call].items(), lists, strict=True)}
        return filled(lambda: write(call, profile, int(link_round), parts, int(room)).hex())
    kind, *edits = words
    if call == "bytes":
        offset, *edits = edits
        message = edited(message, edits)
        return call + runs([outcome_of_reading(kind, profile, with_byte(message, int(offset), byte)) for byte in range(256)])
    message = edited(message, edits)
    if call == "cuts":
        return call + runs([outcome_of_reading(kind, profile, message[:length]) for length in range(len(message) + 1)])
    assert call == "read"
    return outcome_of_reading(kind, profile, message)


def outcomes(lines):
    message = b""
    for line in lines:
        call, *words = line.split()
        if call == "#":
            yield line
        elif call == "message":
            message = byte_list(words[0])
            yield f"a message of {len(message)} bytes"
        elif call == "width":
            yield f"a width of {words[0]}" if int(words[0]) in range(1, 17) else "no width"
        elif call == "pack":
            width, numbers, room = words
            yield filled(lambda: pack(number_list(numbers), int(width), int(room)).hex())
        elif call == "unpack":
            width, packed, room = words
            yield filled(lambda: " ".join(["numbers", *map(str, unpack(byte_list(packed), int(width), int(room)))]))
        elif call == "hexadecimal":
            word, shown, room = words
            yield filled(lambda: hexadecimal_line("" if word == "-" else word, byte_list(shown), int(room)).hex())
        else:
            yield by_profile(NAMES[call], words[0], words[1:], message)


# The input


def list_word(numbers):
    """Equal numbers that follow each other are written once."""
    items = []
    for number in numbers:
        if items and items[-1][0] == number:
            items[-1][1] += 1
        else:
            items.append([number, 1])
    return ",".join(str(number) if many == 1 else f"{number}*{many}" for number, many in items) or "-"


def packing():
    yield "# widths are 1 to 16"
    for bits in [0, *range(1, 17), 17, 32, BEYOND]:
        yield f"width {bits}"
    yield "# lists are packed and unpacked"
    for width, numbers in [
        (1, [0, 1, 0, 0]), (1, [0, 1, 1, 1]), (6, [24, 48, 1, 0]), (6, [0, 24, 50, 1]), (12, [0xABC, 0x123, 0xFFF]),
        (14, [0x1234, 0x2BCD]), (14, [0x3FFF, 0, 1]), (16, [0x0201, 0xFFFF, 0x8000]), (1, [1, 0, 0, 0, 0, 0, 0, 1]),
        (1, [1, 0, 0, 0, 0, 0, 0, 1, 1]), (6, [63] * 9), (12, list(range(1, 10))), (16, [0x100] * 9),
        *((width, []) for width in range(1, 17)),
    ]:
        room = size(len(numbers), width)
        yield f"pack {width} {list_word(numbers)} {room}"
        yield f"unpack {width} {pack(numbers, width, room).hex() or '-'} {len(numbers)}"
    yield "# the first number that does not fit is named"
    for width, numbers in [
        (1, [2, 0, 0, 0]), (1, [1, 1, 1, 2]), (6, [63, 64, 65, 66]), (6, [0, 0, BEYOND, 64]), (12, [4095, 4095, 4095, 4096]),
        (14, [16384, 16384, 0, 0]), (16, [65535, 65535, 65536, 0]),
    ]:
        yield f"pack {width} {list_word(numbers)} {size(len(numbers), width)}"
    yield "# buffers of other lengths"
    for room in 0, 2, 4, 6:
        yield f"pack 6 24,48,1,0 {room}"
    for width, many in (6, 0), (6, 2), (6, 4), (1, 0), (1, 2), (16, 7), (16, 9):
        yield f"unpack {width} {'ff' * many or '-'} 4"
    yield "# a length comes before a number that does not fit"
    for room in 0, 2, 3, 4:
        yield f"pack 6 24,64,1,0 {room}"
    yield "# spare bits are not looked at"
    yield "unpack 1 f2 4"
    yield "unpack 6 18fc 2"


def hexadecimal_lines():
    yield "# lines of hexadecimal, and buffers of other lengths"
    three = example()
    for word, shown in [
        ("confirmation", three["confirmation"]), ("answer", three["answer"]), ("key", b"\x0e"),
        ("digits", bytes.fromhex("0123456789abcdef")), ("-", b"\xff"), ("none", b""),
    ]:
        length = len("" if word == "-" else word) + 2 * len(shown) + 2
        for room in length, 0, 1, length - 1, length + 1, length + 2:
            yield f"hexadecimal {word} {shown.hex() or '-'} {room}"


def offer_line(profile, link_round, seed, values, room):
    return f"{profile} offer {link_round} {bytes(seed).hex()} {list_word(values)} {room}"


def answer_line(profile, link_round, values, signals, room):
    return f"{profile} answer {link_round} {list_word(values)} {list_word(signals)} {room}"


def right_writings():
    yield "# the worked example is written"
    (_, offer), (_, answer), _ = EXAMPLE
    yield offer_line("T-Ding", 1, offer[SEED], offer[VALUES], 32)
    yield answer_line("T-Ding", 1, answer[VALUES], answer[SIGNALS], 17)
    yield "T-Ding confirmation 1 9"
    yield "# a round has its lowest byte first"
    for profile in NAMES:
        yield f"{profile} confirmation {0x04030201} 9"
    yield "# long messages"
    (_, _, link_round, parts), _ = LONG
    yield answer_line("W-OKCN", link_round, parts[VALUES], parts[SIGNALS], 525)
    _, (_, _, link_round, parts) = LONG
    yield offer_line("S-Ding", link_round, parts[SEED], parts[VALUES], 797)


def refused_writings(name, profile):
    n, largest, largest_signal = degree(profile), SETS[profile[0]][3], 2 ** RECONCILERS[profile[1]][2] - 1
    offer, answer = (layout(kind, profile)[1] for kind in ("offer", "answer"))
    seed = range(16)
    yield f"# {name}: a list comes before the buffer, and a length before a number out of range"
    for many, room in (0, 0), (n - 1, offer - 1), (n + 1, offer), (n, 0), (n, offer - 1), (n, offer + 1):
        yield offer_line(name, 1, seed, [BEYOND] * many, room)
    for values, signals, room in [
        (0, 0, 0), (n - 1, n + 1, answer - 1), (n + 1, n, answer), (n, 0, 0), (n, n - 1, answer + 1), (n, n + 1, answer),
        (n, n, 0), (n, n, answer - 1), (n, n, answer + 1),
    ]:
        yield answer_line(name, 1, [BEYOND] * values, [BEYOND] * signals, room)
    for room in 0, 8, 10:
        yield f"{name} confirmation 1 {room}"
    yield f"# {name}: the first number out of range is named, and the signals count on from n"
    all_values, all_signals = [largest] * n, [largest_signal] * n
    for i in 0, 1, n - 1:
        values = all_values[:i] + [largest + 1] + all_values[i + 1 :]
        signals = all_signals[:i] + [largest_signal + 1] + all_signals[i + 1 :]
        yield offer_line(name, 1, seed, values, offer)
        yield answer_line(name, 1, values, all_signals, answer)
        yield answer_line(name, 1, all_values, signals, answer)
        yield answer_line(name, 1, values, signals, answer)
    beyond = [BEYOND] * n
    yield offer_line(name, 1, seed, beyond, offer)
    yield answer_line(name, 1, beyond, beyond, answer)
    yield answer_line(name, 1, all_values, beyond, answer)


def some_message(kind, profile):
    """Of rounded values that are all the largest, and signals that are all 1."""
    n = degree(profile)
    parts = {"offer": {SEED: list(range(16)), VALUES: [SETS[profile[0]][3]] * n}, "confirmation": {}}
    parts["answer"] = {VALUES: [SETS[profile[0]][3]] * n, SIGNALS: [1] * n}
    return written(kind, profile, 1, parts[kind])


# By whom else the messages of a profile are read: with the other reconciler, and with other numbers.
OTHER_READERS = {
    "T-Ding": ["T-OKCN"], "T-OKCN": ["T-Ding", "S-OKCN", "W-Ding"], "S-Ding": ["S-OKCN", "T-Ding"], "S-OKCN": ["S-Ding", "W-OKCN"],
    "W-Ding": ["W-OKCN", "T-OKCN", "S-Ding"], "W-OKCN": ["W-Ding"],
}


def readings(name, profile, kind):
    message = some_message(kind, profile)
    yield f"# an {kind} of {name}".replace("an c", "a c")
    yield f"message {message.hex()}"
    yield f"{name} cuts {kind} +0000"
    yield f"{name} cuts {kind} 2=ff"
    yield f"{name} cuts {kind} 2=00 +00"
    for offset in 2, 3, 4:
        yield f"{name} bytes {kind} {offset}"
    for offset in 2, 3:
        yield f"{name} bytes {kind} {offset} 4=00"
    yield f"{name} bytes {kind} {len(message) - 1}"
    at = 0
    for right in SIZES[profile][KINDS[kind] - 1]:
        swapped = int.from_bytes(right.to_bytes(2, "little"), "big")
        for wrong in dict.fromkeys([0, right - 1, right + 1, right + 256, swapped, 0xFFFF]):
            yield f"{name} cuts {kind} 2=ff {at}={wrong.to_bytes(2, 'little').hex()} +00"
        at += 2 + right
    for other in KINDS:
        if other != kind:
            yield f"{name} read {other}"
    for other in OTHER_READERS[name]:
        yield f"{other} read {kind}"


def spare_bits():
    yield "# spare bits behind a wrong head, and before a further byte"
    yield f"message {some_message('answer', ('T', 'Ding')).hex()}"
    for edit in "4=02", "+00":
        yield f"T-Ding bytes answer 16 {edit}"


def worked_readings():
    yield "# readings of the worked example"
    three = example()
    for message, kinds in [
        (b"", KINDS), (b"\x07", KINDS), (b"\x06\0", KINDS), (b"\x06\0\x03", KINDS), (b"\x07\0", KINDS),
        *((message, KINDS) for message in three.values()),
    ]:
        yield f"message {message.hex() or '-'}"
        for kind in kinds:
            yield f"T-Ding read {kind}"
    yield "T-Ding read confirmation 2=02"
    yield f"message {three['offer'].hex()}"
    yield "T-Ding read offer 4=02"
    yield f"message {three['answer'].hex()}"
    for edits in "16=12", "16=12 3=05", "16=12 +00":
        yield f"T-Ding read answer {edits}"


def lines():
    yield from packing()
    yield from hexadecimal_lines()
    yield from right_writings()
    for name, profile in NAMES.items():
        yield from refused_writings(name, profile)
    for name, profile in NAMES.items():
        for kind in KINDS:
            yield from readings(name, profile, kind)
    yield from spare_bits()
    yield from worked_readings()


def main(command):
    if command == "lines":
        print("\n".join(lines()))
    elif command == "outcomes":
        for outcome in outcomes(line.removesuffix("\n") for line in sys.stdin):
            print(outcome)
    else:
        sys.exit(__doc__)


if __name__ == "__main__":
    main(sys.argv[1] if len(sys.argv) == 2 else "")
