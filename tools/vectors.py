#!/usr/bin/env python3
"""Test vectors for the program `frames`, made from docs/WIRE.md alone.

    vectors.py SEED COUNT          each dump line, followed by its answer
    vectors.py SEED COUNT --in     the dump lines only; the last has no newline
    vectors.py SEED COUNT --out    the answers only

The encoder and the decoder share only the names of the kinds, so that a
misreading of the document shows up as a difference between them.
"""
import random
import re
import struct
import sys

MAX = 2**32 - 1
KINDS = ("data", "up", "down", "ticket", "reassign", "clock")
HALLS = ("change", "claim")

# ---- Encoder. A frame is a dict with its kind and its fields by name.
# The fields behind the kind; data has its body behind these. Answers have the same order.
MESSAGE = ("sender", "clock", "number", "sequencer", "role")
FIELDS = {
    "data": MESSAGE, "up": MESSAGE, "down": MESSAGE,
    "ticket": ("sender", "clock", "of", "number"),
    "reassign": ("sender", "clock", "last", "sent", "sequencer", "role"),
    "clock": ("sender", "clock"),
}

def encode(frame):
    kind = frame["kind"]
    words = [KINDS.index(kind), *(frame[name] for name in FIELDS[kind]), *frame.get("body", ())]
    return struct.pack(f">{len(words)}I", *words)

# ---- Decoder: word by word, stopping at the first fault.
class Refused(Exception):
    """Holds the refusal's number and the byte of the block."""

class Reader:
    def __init__(self, block):
        self.block, self.at = block, 0

    def word(self, low=0, high=MAX, refusal=26):
        if len(self.block) - self.at < 4:
            raise Refused(24, self.at)
        value = int.from_bytes(self.block[self.at:self.at + 4], "big")
        if not low <= value <= high:
            raise Refused(refusal, self.at)
        self.at += 4
        return value

def read_body(reader, hall):
    if hall == "claim":
        return (reader.word(0, 15), reader.word(1, 1_000_000))
    what = reader.word(0, 2)
    template = reader.word()
    field = reader.word(0, 0 if what == 2 else MAX)
    value = reader.word(0, 0 if what in (1, 2) else MAX)
    return (what, template, field, value)

def decode(block, hall):
    reader = Reader(block)
    code = reader.word(0, 5, refusal=25)
    frame = {"kind": KINDS[code], "sender": reader.word(0, 7)}
    frame["clock"] = reader.word(1 if code == 3 else 0)
    if code == 3:
        frame["of"] = reader.word(0, 7)
    if code in (0, 1, 2, 3):
        frame["number"] = reader.word(1)
    if code == 4:
        frame["last"] = reader.word()
        # Numbers of Python do not wrap, so no word passes if last is MAX.
        frame["sent"] = reader.word(frame["last"] + 1, frame["last"] + 7)
    if code in (0, 1, 2, 4):
        frame["sequencer"] = reader.word(0, 7)
        frame["role"] = reader.word()
    if code == 0:
        frame["body"] = read_body(reader, hall)
    if reader.at < len(block):
        raise Refused(27, reader.at)
    return frame

# ---- Dump lines and answers.
# Whole words with or without spaces behind them, then perhaps part of a word.
LINE = re.compile(rb"(change|claim)(?: +((?:[0-9a-fA-F]{8} *)*(?:[0-9a-fA-F]{2}){0,3}))?")

def show(frame):
    parts = [frame["kind"], *(f"{name}={frame[name]}" for name in FIELDS[frame["kind"]])]
    if frame["kind"] == "data":
        parts.append("body=" + ",".join(str(word) for word in frame["body"]))
    return " ".join(parts)

def parse(line):
    """The hall's body kind and the block, or None for a line of another form."""
    found = LINE.fullmatch(line.strip(b" \r"))
    return found and (found[1].decode(), bytes.fromhex((found[2] or b"").decode()))

def answer(line):
    parsed = parse(line)
    if not parsed:
        return "not hex"
    hall, block = parsed
    try:
        frame = decode(block, hall)
    except Refused as refused:
        return "refused {} byte {}".format(*refused.args)
    # A block that reads as a frame is exactly what is written of it.
    assert encode(frame) == block, line
    return show(frame)

def plain(hall, block):
    words = [block[at:at + 4].hex() for at in range(0, len(block), 4)]
    return " ".join([hall, *words]).encode()

def checked(frame, hall):
    """The block of a valid frame, which has to read back and to have its length."""
    block = encode(frame)
    length = {"data": 40 if hall == "change" else 32, "ticket": 20, "reassign": 28, "clock": 12}.get(frame["kind"], 24)
    assert decode(block, hall) == frame and len(block) == length, frame
    return block

# ---- Hand-written lines by their answers, which do not come from the decoder.
# Lines are set apart by "|"; these marks stand for a clock frame and for what makes a line long.
MARKS = {b"~": b"00000005 00000007 00000100", b"%": b"0" * 9000, b"^": b" " * 9000}
WRITTEN = {
    # The examples of the document, in the order it has them.
    "data sender=2 clock=7 number=3 sequencer=0 role=4 body=0,12,9,65536":
    b"change 00000000 00000002 00000007 00000003 00000000 00000004 00000000 0000000c 00000009 00010000",
    "data sender=1 clock=0 number=1 sequencer=1 role=0 body=15,500":
    b"claim 00000000 00000001 00000000 00000001 00000001 00000000 0000000f 000001f4",
    "up sender=5 clock=258 number=2 sequencer=7 role=1": b"claim 00000001 00000005 00000102 00000002 00000007 00000001",
    "down sender=0 clock=4294967295 number=4294967295 sequencer=0 role=4294967295":
    b"claim 00000002 00000000 ffffffff ffffffff 00000000 ffffffff",
    "ticket sender=3 clock=1 of=6 number=1": b"claim 00000003 00000003 00000001 00000006 00000001",
    "reassign sender=4 clock=16909060 last=2 sent=9 sequencer=1 role=2":
    b"claim 00000004 00000004 01020304 00000002 00000009 00000001 00000002",
    # From here on with more lines: ends and spaces that are allowed, no spaces, long lines.
    "clock sender=7 clock=256":
    b"claim 00000005 00000007 00000100|change ~\r|\r\rclaim ~| \r change     ~ \r \r|claim ^~^"
    b"|claim 000000050000000700000100|change 0000000500000007 00000100|change 00000005     00000007  00000100",
    # A kind with nothing behind it is the empty block.
    "refused 24 byte 0": b"claim|change|change |  claim   |change\r|\rclaim \r|\r \r change\r\r|claim 00",
    "refused 24 byte 8": b"claim 00000005 00000007 0000|claim 00000005000000000aBc|claim 00000005 00000000    0abcde",
    # The first fault wins, also if the block ends right behind it or goes on for too long.
    "refused 25 byte 0": b"claim 00000006|change ffffffff 00000009 00|change 00000600",
    "refused 26 byte 4": b"claim 00000005 00000008 00000100|claim 00000005 00000008|claim 00000005 00000008 0000010000",
    "refused 26 byte 8": b"claim 00000003 00000003 00000000 00000006 00000001",
    "refused 26 byte 16": b"claim 00000004 00000004 00000000 ffffffff 00000000 00000001 00000002",
    "refused 26 byte 28": b"claim 00000000 00000001 00000000 00000001 00000001 00000000 0000000f 00000000",
    "refused 27 byte 12": b"claim 00000005 00000007 00000100 00|claim ~%|change ~ %",
    # A last that leaves no sent is itself in its range.
    "refused 24 byte 16": b"change 00000004 00000004 00000000 ffffffff|claim 00000004 00000004 00000000 ffffffff 00",
    "clock sender=0 clock=2882400009": b"change 00000005 00000000 aBCdEf09|claim 00000005 00000000 ABCDEF09",
    "not hex": b"| |     |\r| \r \r|\t|\0|~|00000006|other ~|Change ~|CLAIM ~|Change|chang ~|changes ~|changes"
    b"|change~|claim0000000500000007 00000100|claimchange ~|claim claim ~|change claim|~ claim|change\t~|change\r~"
    b"|change \r ~|change,|cha nge ~|change 0x~|change 0X00000500000007|change 0x000005 00000007 00000100"
    b"|change +0000005 00000007 00000100|change -0000005 00000007 00000100|change 0000_005 00000007 00000100"
    b"|change 00000005,00000007,00000100|change 00000005\t00000007 00000100|change 00000005\r00000007 00000100"
    b"|\tchange ~|change ~\t|change ~\t\r|change ~\v|change ~\f|change ~\0|change\t|change \t|change\0"
    b"|change 0000 0005 00000007 00000100|change 00000005 00000007 00 000100|change 00000005 00000007 0000 01"
    b"|change 0000000500 000007 00000100|change 0 0|change 00 00|change 000000 05|change 0000000 5"
    b"|change 00000006 00 00|change 0|change 00000006 0|change ~0|change ~ 000|change ~g|change ~ 0g|change ~ ."
    b"|claim 00000006 0000000G|claim ffffffff /|claim 0000000: @`G|claim ~ # clock|claim ~%x|claim ~%0|claim ~%\t"
    # Text that is not ASCII: a wide digit, kinds of space and line end, a byte order mark.
    b"|change \xef\xbc\x900000005|change ~\xc2\xa0|change ~\xc2\x85|change ~\xe2\x80\xa8|\xef\xbb\xbfclaim ~"
    # Bytes that are no UTF-8 text.
    b"|\xff|\xff\xfe\x00|change \xff|change\xff|\x80change ~|change ~\xff|change ~ \xc3\r|change 000000\xc0\xb0"
    b"|claim \xed\xa0\x80|claim ~\xf0\x9f",
}

def written():
    for expected, lines in WRITTEN.items():
        for line in lines.split(b"|"):
            for mark, text in MARKS.items():
                line = line.replace(mark, text)
            assert answer(line) == expected, (line, answer(line), expected)
            yield line

# ---- The systematic walk. No two fields of a sample share a value that would hide a swap.
TO = {"number": 0x0A0B0C0D, "sequencer": 6, "role": 0xFEDCBA98}
OTHERS = [
    *({"kind": kind, "sender": 3, "clock": 0x81020304, **TO} for kind in ("up", "down")),
    {"kind": "ticket", "sender": 2, "clock": 0x01020304, "of": 5, "number": 0x0A0B0C0D},
    {"kind": "reassign", "sender": 1, "clock": 0x01020304, "last": 5, "sent": 9, "sequencer": 7, "role": 3},
    {"kind": "clock", "sender": 6, "clock": 0x01020304},
]
BODIES = {"change": [(0, 11, 22, 33), (1, 11, 22, 0), (2, 11, 0, 0)], "claim": [(14, 400_000)]}
EDGES = (0, 1, 2, 3, 5, 6, 7, 8, 15, 16, 256, 1_000_000, 1_000_001, 1 << 24, 1 << 31, MAX)

def put(block, word, value):
    return block[:4 * word] + struct.pack(">I", value) + block[4 * word + 4:]

def walk():
    for hall, other in (HALLS, HALLS[::-1]):
        datas = [{"kind": "data", "sender": 5, "clock": 0x01020304, **TO, "body": body} for body in BODIES[hall]]
        for frame in datas + OTHERS:
            block = checked(frame, hall)
            blocks = [block[:size] for size in range(len(block))] + [block + bytes(more) for more in range(6)]
            for word in range(len(block) // 4):
                for value in EDGES:
                    changed = put(block, word, value)
                    # A bad word is refused at the block's end too, but not if it is cut short.
                    cuts = (changed[:4 * word + 4], changed[:4 * word + 3]) if value in (0, MAX) else ()
                    blocks += [changed, *cuts]
            yield plain(other, block)
            yield from (plain(hall, block) for block in blocks)

def reassignments():
    for last in (0, 1, *range(MAX - 8, MAX + 1)):
        for sent in (*range(last - 1, last + 10), 0, MAX):
            # What a sum that wraps would let pass has to be refused.
            yield plain("claim", struct.pack(">7I", 4, 1, 2, last, sent % 2**32, 3, 4))

# ---- Random cases.
def number(rng, low=0, high=MAX):
    return rng.choice((low, high, min(low + 1, high), max(high - 1, low), rng.randint(low, high)))

def random_frame(rng, hall):
    kind = rng.choice(KINDS)
    last = number(rng, 0, MAX - 1)
    fields = {
        "sender": number(rng, 0, 7), "clock": number(rng, 1 if kind == "ticket" else 0),
        "number": number(rng, 1), "of": number(rng, 0, 7), "sequencer": number(rng, 0, 7), "role": number(rng),
        "last": last, "sent": number(rng, last + 1, min(last + 7, MAX)),
    }
    frame = {"kind": kind} | {name: fields[name] for name in FIELDS[kind]}
    if kind == "data" and hall == "claim":
        frame["body"] = (number(rng, 0, 15), number(rng, 1, 1_000_000))
    elif kind == "data":
        what = rng.randrange(3)
        frame["body"] = (what, number(rng), 0 if what == 2 else number(rng), 0 if what else number(rng))
    return frame

def damage(rng, block):
    what = rng.randrange(4)
    if what == 0 or len(block) < 4:
        return block + rng.randbytes(rng.randint(1, 9))
    if what == 1:
        return block[:rng.randrange(len(block))]
    if what == 2:
        return put(block, rng.randrange(len(block) // 4), rng.choice((*EDGES, rng.randint(0, MAX))))
    bit = 1 << rng.randrange(8 * len(block))
    return (int.from_bytes(block, "big") ^ bit).to_bytes(len(block), "big")

def random_block(rng):
    """Bytes at random, or words that are small enough to get past the first ones."""
    if rng.randrange(2):
        return rng.randbytes(rng.randint(0, 48))
    return struct.pack(">12I", *(rng.choice(EDGES[:6]) for _ in range(12)))[:rng.choice((12, 20, 24, 28, 32, 40, 47))]

def dress(rng, hall, block):
    """A line of that block in any form that is allowed."""
    gaps = rng.choice(((1,), (0,), (0, 1, 2, 7)))
    digits = "".join(block[at:at + 4].hex() + " " * rng.choice(gaps) for at in range(0, len(block), 4))
    case = rng.choice((str.lower, str.upper, lambda text: "".join(rng.choice((c, c.upper())) for c in text)))
    ends = ["".join(rng.choice(" \r") for _ in range(rng.choice((0, 0, 1, 3)))) for _ in range(2)]
    line = (ends[0] + hall + " " * rng.choice((1, 1, 2, 5)) + case(digits) + ends[1]).encode()
    assert parse(line) == (hall, block), line
    return line

def spoil(rng, line):
    """One byte put in, replaced or taken out; the answer may stay the same."""
    at = rng.randrange(len(line))
    byte = rng.choice((b" ", b"\r", b"\t", b"0", b"A", b"g", b"x", b"+", b"\0", b"\x80", b"\xff", b""))
    return line[:at] + byte + line[at + rng.randrange(2):]

def random_lines(rng, count):
    for _ in range(count):
        hall, chance = rng.choice(HALLS), rng.randrange(100)
        frame = random_frame(rng, hall)
        block = checked(frame, hall)
        if 40 <= chance < 80:
            for _ in range(rng.choice((1, 1, 2))):
                block = damage(rng, block)
        elif 80 <= chance < 90:
            block = random_block(rng)
        line = dress(rng, hall, block)
        assert chance >= 40 or answer(line) == show(frame), line
        yield spoil(rng, line) if chance >= 90 else line

def main():
    match sys.argv[1:]:
        case [seed, count, *mode] if mode in ([], ["--in"], ["--out"]):
            rng = random.Random(int(seed))
        case _:
            sys.exit(__doc__)
    lines = [*written(), *walk(), *reassignments(), *random_lines(rng, int(count))]
    # A newline would split a line, and a last line that is empty and not ended would be none.
    assert all(b"\n" not in line for line in lines) and lines[-1]
    answers = [answer(line).encode() for line in lines]
    if mode == ["--in"]:
        sys.stdout.buffer.write(b"\n".join(lines))
    elif mode == ["--out"]:
        sys.stdout.buffer.write(b"\n".join(answers) + b"\n")
    else:
        sys.stdout.buffer.writelines(part + b"\n" for pair in zip(lines, answers) for part in pair)

if __name__ == "__main__":
    main()
