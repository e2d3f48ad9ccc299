#!/usr/bin/env python3
"""A model of sealed strips, and what the journey of src/main.rt has to print.

It was written from the rules alone and shares no code with the library. It keeps a strip as plain blocks and a place,
and works out stored rows and stamps anew each time: no answer rests on an earlier conversion. Before it prints, it
holds ForkAES to the vectors beside this file, and takes every stored row back and across.

    python3 journey.py > ../stdout
"""

from dataclasses import dataclass, replace
from pathlib import Path

PLAIN, LEFT, RIGHT = "plain", "left", "right"
HOME, AWAY = "home", "away"
OTHER = {LEFT: RIGHT, RIGHT: LEFT}


# ---- Bytes as polynomials, and the substitution


def doubled(byte):
    return byte << 1 ^ (0x11B if byte & 0x80 else 0)


def product(a, b):
    total = 0
    while b:
        if b & 1:
            total ^= a
        a = doubled(a)
        b >>= 1
    return total


def inverse(byte):
    """The byte that makes 01 with this one; 00 counts as its own."""
    return next((other for other in range(256) if product(byte, other) == 1), 0)


def bit(byte, place):
    return byte >> place % 8 & 1


def substitute(byte):
    turned = inverse(byte)
    answer = 0
    for place in range(8):
        six = [bit(turned, place + up) for up in (0, 4, 5, 6, 7)] + [bit(0x63, place)]
        answer |= sum(six) % 2 << place
    return answer


S = [substitute(byte) for byte in range(256)]
INV_S = [S.index(byte) for byte in range(256)]


# ---- Steps on a block; the byte in a column and a row of it stands at 4 * column + row


def xored(a, b):
    assert len(a) == len(b)
    return bytes(x ^ y for x, y in zip(a, b))


def shifted(block, columns):
    """Row r turned to the left by so many columns times r."""
    return bytes(block[(j + 4 * columns * (j % 4)) % 16] for j in range(16))


def mixed(block, first_row):
    """Each column times a matrix whose rows are the first one, turned to the right."""
    answer = bytearray(16)
    for j in range(16):
        column, row = j - j % 4, j % 4
        for k in range(4):
            answer[j] ^= product(first_row[(k - row) % 4], block[column + k])
    return bytes(answer)


def full_round(block):
    return mixed(shifted(bytes(S[b] for b in block), 1), (2, 3, 1, 1))


def undo_full_round(block):
    return bytes(INV_S[b] for b in shifted(mixed(block, (14, 11, 13, 9)), -1))


# ---- Round keys

ROUND_CONSTANTS = bytes.fromhex("01020408102040801b366cd8ab4d9a2f")


def next_key(key, constant):
    new = bytearray(key[j] ^ S[key[source]] for j, source in enumerate((13, 14, 15, 12)))
    new[0] ^= constant
    for j in range(4, 16):
        new.append(new[j - 4] ^ key[j])
    return bytes(new)


def round_keys(key):
    keys = [key]
    for constant in ROUND_CONSTANTS:
        keys.append(next_key(keys[-1], constant))
    return keys


# ---- Forkciphers: the image of a block on a side under a tweak, and the origin of an image


class Forkcipher:
    def cross(self, side, tweak, image):
        return self.image(OTHER[side], tweak, self.origin(side, tweak, image))


class ForkAes(Forkcipher):
    STEM = range(0, 5)
    BRANCH = {LEFT: range(5, 10), RIGHT: range(11, 16)}

    def __init__(self, key):
        self.keys = round_keys(key)

    def subkey(self, i, tweak):
        """The tweak goes into the two top rows, column by column."""
        spread = bytearray(16)
        for k, byte in enumerate(tweak):
            spread[4 * (k // 2) + k % 2] = byte
        return xored(self.keys[i], spread)

    def turns(self, numbers, tweak, block):
        for i in numbers:
            block = full_round(xored(block, self.subkey(i, tweak)))
        return block

    def undo_turns(self, numbers, tweak, block):
        for i in reversed(numbers):
            block = xored(undo_full_round(block), self.subkey(i, tweak))
        return block

    def image(self, side, tweak, block):
        branch = self.BRANCH[side]
        end = self.turns(branch, tweak, self.turns(self.STEM, tweak, block))
        return xored(end, self.subkey(branch.stop, tweak))

    def origin(self, side, tweak, image):
        branch = self.BRANCH[side]
        end = xored(image, self.subkey(branch.stop, tweak))
        return self.undo_turns(self.STEM, tweak, self.undo_turns(branch, tweak, end))


class Pad(Forkcipher):
    def __init__(self, lower, p, q):
        self.lower, self.p, self.q = lower, p, q

    def image(self, side, tweak, block):
        return xored(self.lower.image(side, tweak, xored(block, self.p)), self.q)

    def origin(self, side, tweak, image):
        return xored(self.lower.origin(side, tweak, xored(image, self.q)), self.p)


class Owner(Forkcipher):
    def __init__(self, lower, owner):
        self.lower, self.mask = lower, (owner * 2**45).to_bytes(8, "big")

    def image(self, side, tweak, block):
        return self.lower.image(side, xored(tweak, self.mask), block)

    def origin(self, side, tweak, image):
        return self.lower.origin(side, xored(tweak, self.mask), image)


class Crossed(Forkcipher):
    def __init__(self, lower):
        self.lower = lower

    def image(self, side, tweak, block):
        return self.lower.image(OTHER[side], tweak, block)

    def origin(self, side, tweak, image):
        return self.lower.origin(OTHER[side], tweak, image)


def read_vectors():
    """Key, tweak, block, left image and right image to a line."""
    lines = (Path(__file__).parent / "forkaes_vectors.txt").read_text().splitlines()
    return [[bytes.fromhex(word) for word in line.split()] for line in lines if not line.startswith("#")]


def check_forkaes(vectors):
    assert len(vectors) == 6
    for key, tweak, block, left, right in vectors:
        cipher = ForkAes(key)
        for side, image in ((LEFT, left), (RIGHT, right)):
            assert cipher.image(side, tweak, block) == image
            assert cipher.origin(side, tweak, image) == block
        assert cipher.cross(LEFT, tweak, left) == right
        assert cipher.cross(RIGHT, tweak, right) == left


# ---- Strips

ROWS_USE, HEADER_USE = 0, 1
MOST_TEXT = 65_536


@dataclass(frozen=True)
class Fault:
    number: int
    row: int = 0


LONG_TEXT, WRONG_MEMORY, WRONG_ANSWER_PLACE = Fault(1), Fault(2), Fault(4)


def no_such_row(row):
    return Fault(3, row)


@dataclass(frozen=True)
class Strip:
    blocks: tuple  # the plain block of each row
    number: int
    station: str = PLAIN
    pile: str = HOME

    def tweak(self, use, row):
        return (use * 2**61 + self.number * 2**29 + row).to_bytes(8, "big")

    def stored(self, piles):
        """The rows as they lie in memory."""
        if self.station == PLAIN:
            return self.blocks
        pile = piles[self.pile]
        return tuple(pile.image(self.station, self.tweak(ROWS_USE, i), b) for i, b in enumerate(self.blocks))

    def stamp(self, piles):
        pile = piles[self.pile]
        header = len(self.blocks).to_bytes(4, "big") + bytes(12)
        stamp = pile.image(LEFT, self.tweak(HEADER_USE, 0), header)
        for i, block in enumerate(self.blocks):
            stamp = xored(stamp, pile.image(RIGHT, self.tweak(ROWS_USE, i), block))
        return stamp


def lay(number, text, memory):
    """A strip, or a fault; of the memory only the length matters."""
    if len(text) > MOST_TEXT:
        return LONG_TEXT
    rows = (len(text) + 15) // 16
    if memory != 16 * rows:
        return WRONG_MEMORY
    filled = text.ljust(16 * rows, b"\0")
    return Strip(tuple(filled[16 * i : 16 * i + 16] for i in range(rows)), number)


# ---- Calls: what is done, to which rows or with which values, and the length of the memory handed over


@dataclass(frozen=True)
class Call:
    act: str
    arguments: tuple
    memory: int


OWN = 48


def write(row, block, memory=OWN):
    assert len(block) == 16
    return Call("write", (row, block), memory)


def exchange(first, second, memory=OWN):
    return Call("exchange", (first, second), memory)


def turn(station, memory=OWN):
    return Call("station", (station,), memory)


def renumber(number, memory=OWN):
    return Call("number", (number,), memory)


def transfer(pile, memory=OWN):
    return Call("pile", (pile,), memory)


def read(row, answer_place=16, memory=OWN):
    return Call("read", (row, answer_place), memory)


def stamp(answer_place=16, memory=OWN):
    return Call("stamp", (answer_place,), memory)


def rows_named(call):
    return call.arguments[: {"write": 1, "read": 1, "exchange": 2}.get(call.act, 0)]


def fault_of(strip, call):
    """The first fault that there is: memory, rows in order, answer place."""
    count = len(strip.blocks)
    if call.memory != 16 * count:
        return WRONG_MEMORY
    for row in rows_named(call):
        if row >= count:
            return no_such_row(row)
    if call.act in ("read", "stamp") and call.arguments[-1] != 16:
        return WRONG_ANSWER_PLACE
    return None


def changed(strip, call):
    """The strip after a call that no fault stops."""
    blocks = list(strip.blocks)
    match call.act, call.arguments:
        case "write", (row, block):
            blocks[row] = block
        case "exchange", (first, second):
            blocks[first], blocks[second] = blocks[second], blocks[first]
        case ("station" | "number" | "pile") as part, (value,):
            return replace(strip, **{part: value})
    return replace(strip, blocks=tuple(blocks))


def make(strip, call, piles):
    """The strip after the call, and the answer: None, a block or a fault."""
    fault = fault_of(strip, call)
    if fault:
        return strip, fault
    if call.act == "read":
        return strip, strip.blocks[call.arguments[0]]
    if call.act == "stamp":
        return strip, strip.stamp(piles)
    return changed(strip, call), None


# ---- The journey: the same piles, text and calls as in src/

NUMBER = 7
TEXT = b"31415926535897932384626433832795028841971"
OWNER = 4660
# No byte stands twice in the four.
OUTER_P = bytes.fromhex("00112233445566778899aabbccddeeff")
OUTER_Q = bytes.fromhex("f0e1d2c3b4a5968778695a4b3c2d1e0f")
INNER_P = bytes.fromhex("02132435465768798a9bacbdcedfe0f1")
INNER_Q = bytes.fromhex("fdecdbcab9a897867564534231201f0e")

FIRST, SECOND, THIRD = b"the first block.", b"the second block", b"the third block!"
UNSEEN = b"never to be seen"

CALLS = [
    # home: every turn from a station to a station but the one from left to plain
    read(0),
    turn(PLAIN),
    stamp(),
    turn(LEFT, memory=47),
    turn(LEFT),
    read(1),
    stamp(),
    write(3, UNSEEN),
    turn(LEFT),
    write(1, FIRST),
    exchange(0, 2),
    turn(RIGHT),
    read(2),
    stamp(),
    exchange(3, 0),
    turn(RIGHT),
    exchange(1, 1),
    write(2, SECOND),
    read(0, answer_place=15),
    renumber(65535),
    stamp(),
    turn(PLAIN),
    read(70000),
    read(1),
    turn(RIGHT),
    write(0, UNSEEN, memory=0),
    turn(LEFT),
    read(2),
    # away
    transfer(AWAY),
    read(0),
    stamp(),
    exchange(1, 4),
    renumber(65535),
    stamp(answer_place=17),
    transfer(AWAY),
    exchange(2, 1),
    transfer(HOME, memory=64),
    turn(RIGHT),
    read(1),
    stamp(),
    exchange(5, 3),
    write(2, THIRD),
    exchange(0, 1),
    renumber(0),
    stamp(),
    read(3, answer_place=17),
    turn(PLAIN),
    stamp(),
    write(70000, UNSEEN, memory=47),
    read(2),
    renumber(9, memory=0),
    # home again, with that turn
    transfer(HOME),
    stamp(answer_place=0),
    transfer(HOME),
    read(1, answer_place=0),
    stamp(),
    turn(LEFT),
    stamp(answer_place=15, memory=64),
    turn(PLAIN),
    read(2, answer_place=17),
    exchange(0, 2),
    stamp(answer_place=15),
    # and away, to stay
    transfer(AWAY),
    turn(LEFT),
    exchange(3, 70000, memory=64),
    turn(RIGHT),
    read(0),
]


def journey_piles(vectors):
    home = ForkAes(vectors[1][0])
    lowest = Pad(ForkAes(vectors[2][0]), INNER_P, INNER_Q)
    away = Pad(Owner(Crossed(lowest), OWNER), OUTER_P, OUTER_Q)
    return {HOME: home, AWAY: away}


# ---- What is printed


def told(answer):
    if answer is None:
        return "done"
    if isinstance(answer, Fault):
        return f"fault {answer.number} row {answer.row}"
    return answer.hex()


def told_lay(outcome):
    return f"lay {told(None if isinstance(outcome, Strip) else outcome)}"


def check_stored(strip, piles):
    """Stored rows go back to the plain blocks, and across to the images on the other side."""
    if strip.station == PLAIN:
        return
    pile = piles[strip.pile]
    across = replace(strip, station=OTHER[strip.station]).stored(piles)
    for i, image in enumerate(strip.stored(piles)):
        tweak = strip.tweak(ROWS_USE, i)
        assert pile.origin(strip.station, tweak, image) == strip.blocks[i]
        assert pile.cross(strip.station, tweak, image) == across[i]


def print_journey(piles):
    print(told_lay(lay(NUMBER, bytes(65_537), 16)))
    print(told_lay(lay(NUMBER, TEXT, 47)))
    strip = lay(NUMBER, TEXT, OWN)
    print(told_lay(strip))
    steps = []
    print("answers")
    for n, call in enumerate(CALLS, 1):
        strip, answer = make(strip, call, piles)
        check_stored(strip, piles)
        print(n, told(answer))
        steps.append(strip)
    print("end", strip.station, strip.pile, strip.number, "rows", len(strip.blocks))
    for row in strip.stored(piles):
        print(row.hex())
    print("step by step")
    for n, strip in enumerate(steps, 1):
        print(n, strip.station, strip.pile, strip.number, *(row.hex() for row in strip.stored(piles)))


def main():
    vectors = read_vectors()
    check_forkaes(vectors)
    assert len(set(OUTER_P + OUTER_Q + INNER_P + INNER_Q)) == 64
    print_journey(journey_piles(vectors))


if __name__ == "__main__":
    main()
