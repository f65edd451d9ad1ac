#!/usr/bin/env python3
"""Writes a log of calls at random for `replay` to standard output: random_log.py SEED.

Small boards, where ties and refusals are common; every call; lines that are not calls; maps of both forms with each kind of fault; several nets in a
drawing, and numbers that are no net; journals that are full; loads at the ends of their ranges and beyond."""
import random
import struct
import sys

pick = random.choice
GAP = 20  # pins are too near when both x and y differ by less
LIMIT = 60000  # x and y go from -LIMIT to LIMIT
RECORD = {"old": 12, "new": 16}  # the bytes of a record of each form


def chance(percent):
    return random.randrange(100) < percent


def number(n):
    """A number as a word, at times with leading zeros."""
    sign = "-" if n < 0 or (n == 0 and chance(5)) else ""
    return sign + "0" * (random.randrange(1, 12) if chance(3) else 0) + str(abs(n))


def plain(n):
    """A number that takes no sign."""
    return number(n).lstrip("-")


def gaps(n):
    """So many least gaps, in steps; at times a step more or less."""
    return GAP * n + (pick([-1, 1]) if chance(5) else 0)


def part(spread):
    """An x or a y: near the middle, at times at the board's ends or past them."""
    if chance(97):
        return gaps(random.randint(-spread, spread))
    return pick([LIMIT, -LIMIT, LIMIT + 1, -LIMIT - 1, LIMIT - 1, 20001, 2147483647, -2147483648, random.randint(-LIMIT, LIMIT)])


def seat():
    return pick([0, 0, 0, 0, 1, 1, 2, 7]) if chance(96) else pick([4, 5, 6, 8, 9, 255, 256, 4294967295])


def pin():
    return random.randrange(32) if chance(95) else pick([32, 33, 255, 256, 4294967295])


def net():
    """A net: most often one of the first three, at times a number that is none."""
    return pick([1, 1, 1, 1, 2, 2, 3, 1 if chance(60) else random.randint(1, 8)]) if chance(96) else pick([0, 9, 10, 255, 256, 257, 4294967295])


def part_number():
    return pick([0, 0, 1, 255, 256, 4294967295, random.randrange(2**32), random.randrange(2**32)])


def hanging(most):
    """Places each a few steps from one before it, most often from the latest, so that pins hang on one another."""
    far = random.randint(GAP, 200)
    spots = [(0, 0)]
    while len(spots) < most:
        x, y = spots[-1] if chance(80) else pick(spots)
        spots.append((x + far * random.randint(-1, 3), y + far * random.randint(-1, 2)))
    return spots


def apart(spots):
    """Those of the places that are too near to none before them."""
    kept = []
    for x, y in spots:
        if all(abs(x - a) >= GAP or abs(y - b) >= GAP for a, b in kept):
            kept.append((x, y))
    return kept


def board(spread, most):
    """Places for pins, no two too near, in one of several patterns."""
    style = random.randrange(7)
    if style == 0:
        spots = [(GAP * x, GAP * (x + pick([0, 1]))) for x in range(-spread, spread)]
    elif style == 1:
        step = pick([GAP, GAP + 1, 2 * GAP, 3 * GAP])
        spots = [(x * step, y * step) for x in range(-3, 3) for y in range(-3, 3)]
    elif style == 2:
        far = random.randint(GAP, LIMIT // 3)
        spots = [(x * far, y * far) for x in range(-3, 4) for y in range(-3, 4)]
    elif style == 3:
        spots = [(random.randint(-LIMIT, LIMIT), random.randint(-LIMIT, LIMIT)) for _ in range(most)]
    elif style == 4:
        spots = hanging(most)
    else:
        spots = [(gaps(random.randint(-spread, spread)), gaps(random.randint(-spread, spread))) for _ in range(2 * most)]
    random.shuffle(spots)
    spots = apart(spots)
    return spots[: random.randint(0, most) if chance(50) else most]


def record(form, job, number_of_pin, byte_3, x, y, number_of_part):
    """A record of a form; its byte 3 is the net in the new form and 0 in the old one, which has no part number."""
    twelve = job.to_bytes(2, "big") + bytes([number_of_pin, byte_3]) + (x % 2**32).to_bytes(4, "big") + (y % 2**32).to_bytes(4, "big")
    return twelve + (number_of_part.to_bytes(4, "big") if form == "new" else b"")


def feeds(count):
    """The nets and part numbers of so many pins: all as in an old map, or all but one, or any."""
    style = random.randrange(4)
    if style > 1:
        return [(pick([1, 1, 2, 3, random.randint(1, 8)]), part_number()) for _ in range(count)]
    pairs = [(1, 0)] * count
    if style == 1 and pairs:
        pairs[random.randrange(count)] = pick([(random.randint(1, 8), 0), (1, part_number()), (8, 1)])
    return pairs


def pin_map(form, job, spread):
    """A map of a form, at times with a fault in one or two of its records or in its length."""
    spots = board(spread, random.randint(0, 32))
    numbers = sorted(random.sample(range(32), len(spots)))
    records = [[job, n, feed if form == "new" else 0, x, y, made] for n, (x, y), (feed, made) in zip(numbers, spots, feeds(len(spots)))]
    for _ in range(pick([0, 0, 0, 1, 2])):
        if records:
            faulty, other = pick(records), pick(records)
            fault = random.randrange(7)
            if fault == 0:
                faulty[0] = pick([job ^ 1, 0, 65535])
            elif fault == 1:
                faulty[1] = pick([32, 255, other[1], 0])
            elif fault == 2:
                faulty[2] = pick([0, 1, 8, 9, 255])
            elif fault == 3:
                faulty[pick([3, 4])] = pick([LIMIT + 1, -LIMIT - 1, 2147483647, -2147483648])
            elif fault == 4:
                faulty[3:5] = [other[3] + pick([0, GAP - 1, GAP]), other[4] + pick([0, 1 - GAP])]
            elif fault == 5:
                records.append(pick(records)[:])
            else:
                random.shuffle(records)
    data = b"".join(record(form, *r) for r in records)
    if chance(4):
        most = 32 * RECORD[form]
        odd = [bytes(most + 1), bytes(most + RECORD[form]), bytes(384), bytes(480), bytes(512), bytes(4200), bytes(4201)]
        data = pick([data[:-1], data[:-4], data + b"\0", data + bytes(4), data * 2, data[:1]] + odd)
    text = data.hex() or "-"
    return text.upper() if chance(10) else text


def formed(job, spread):
    """A form and a map: most often a map of that form, at times of the other, seldom a word that is no form."""
    form = pick(["old", "new"])
    text = pin_map(form if chance(96) else pick(["old", "new"]), job, spread)
    return f"{form if chance(99) else pick(['Old', 'NEW', 'olds', '12', '-'])} {text}"


def opening(spread):
    at = seat()
    job = 100 + at % 100 if chance(90) else pick([0, 1, 100, 101, 65535, 65536])
    return f"open {plain(at)} {plain(job)} {formed(job if job < 65536 else 7, spread) if chance(60) else pick(['old -', 'new -'])}"


def moving(spread):
    """A map moved into the other form, most often with room for it."""
    call, form, other = pick([("over", "old", "new"), ("back", "new", "old")])
    job = pick([1, 7, 7, 258, 65535]) if chance(94) else pick([0, 0, 65536])
    text = pin_map(form if chance(96) else other, job % 65536, spread)
    need = 0 if text == "-" else len(text) // 2 // RECORD[form] * RECORD[other]
    room = pick([need, need, need + 1, need + 5, max(need - 1, 0), 1024]) if chance(90) else pick([0, 384, 512, 1024, 1025])
    return f"{call} {plain(job)} {plain(room)} {text}"


def listed(parts):
    return ",".join(map(number, parts)) if parts else "-"


def favour():
    """What a wiring says of the shape to favour, before its line ends: most often nothing."""
    return pick([" lower", " upper"]) if chance(40) else pick([" Upper", " straight", " upper lower", " -"]) if chance(2) else ""


def bare(spread):
    spots = board(spread, pick([3, 5, 8, 12, 20, 32]))
    xs, ys = [x for x, _ in spots], [y for _, y in spots]
    if chance(15) and xs:
        for _ in range(random.randint(1, 3)):
            i = random.randrange(len(xs))
            fault = random.randrange(4)
            if fault == 0:
                j = random.randrange(len(xs))
                xs[i], ys[i] = xs[j] + pick([0, 1 - GAP, -GAP]), ys[j] + pick([0, GAP - 1])
            elif fault == 1:
                xs[i] = part(spread)
                ys[i] = pick([LIMIT + 1, -LIMIT - 1, LIMIT, ys[i]])
            elif fault == 2:
                xs = xs[: random.randrange(len(xs))] or [0]
                break
            else:
                more = pick([33, 40, 41]) - len(xs)
                xs, ys = xs + [GAP * i for i in range(more)], ys + [300 * GAP] * more
                break
    room = pick([64, 64, 64, 62, random.randint(0, 65), len(xs), 2 * len(xs)])
    return f"bare {plain(room)} {listed(xs)} {listed(ys)}{favour()}"


def stated(call):
    """The net and the part number that a placing states."""
    return f" {plain(net())} {plain(part_number())}" if call == "place" else ""


def edit(spread):
    at, which = plain(seat()), plain(pin())
    call = pick(["place", "place", "place", "move", "move", "remove"])
    return f"remove {at} {which}" if call == "remove" else f"{call} {at} {which} {number(part(spread))} {number(part(spread))}{stated(call)}"


def bits(value):
    """The eight hex digits of the bits of the f32 nearest to a value."""
    return struct.pack(">f", value).hex()


def beside(digits, by):
    """The digits of bits counted on: of a neighbour among the f32 where by is 1 or -1."""
    return f"{int(digits, 16) + by:08x}"


def inside(low, high):
    """The bits of an f32 from low to high: anywhere, or at an end or next to it; where low is 0 also -0 and subnormals."""
    if chance(70):
        return bits(random.uniform(low, high))
    small = ["80000000", "00000001", "007fffff", "00800000", bits(random.uniform(0, 2**-126))] if low == 0 else []
    return pick([bits(low), beside(bits(low), 1), bits(high / 2), bits(high), bits(high), beside(bits(high), -1)] + small)


def beyond(low, high):
    """The bits of an f32 that is not from low to high: next to an end, of the other sign, NaNs, infinities, the largest."""
    next_to_low = beside(bits(low), -1) if low else "80000001"
    other_sign = bits(-random.uniform(max(low, high / 9), high))
    return pick([beside(bits(high), 1), next_to_low, other_sign] * 2 + "7fc00000 ffc00000 7f800001 7f800000 ff800000 7f7fffff ff7fffff".split())


def amount(low, high, percent):
    """An f32 as the log has it: that often out of its range, seldom in capitals or no f32."""
    if chance(1):
        return pick(["", "4140000", "041400000", "4140000g", "-1400000", "0x414000", "12", "-"])
    digits = beyond(low, high) if chance(percent) else inside(low, high)
    return digits.upper() if chance(5) else digits


def loads():
    """Loads for the pins from 0 on: at times one of them out of its range, an entry that is no load, or more than 32."""
    entries = []
    for _ in range(pick([0, 1, 5, 31, 32, 32, 32, 32, random.randint(0, 32)])):
        entries.append(pick(["s", f"a{inside(0, 500)}", f"w{inside(0, 12000)}"]))
    if entries and chance(20):
        entries[random.randrange(len(entries))] = pick([f"a{amount(0, 500, 90)}", f"w{amount(0, 12000, 90)}"])
    if chance(3):
        entries.insert(random.randrange(len(entries) + 1), pick(["", "a", "w", "A41400000", "b41400000", "41400000", "S", "ss", "s00000000", "-", "0"]))
    if chance(3):
        entries = (entries + ["s"] * 40)[: pick([32, 33, 33, 34, 40])]
    return ",".join(entries) or "-"


def drops(at):
    """A call for the drops of a seat's net, most often with all numbers in their ranges."""
    return f"drops {at} {plain(net())} {amount(1, 60, 5)} {amount(0, 0.01, 5)} {loads()}"


def lending(call, at, most):
    """A wiring of a seat's net, or its copper as segments, most often with room for all, else for at most so many."""
    return f"{call} {at} {plain(net())} {plain(pick([64, 64, random.randint(0, most)]))}{favour()}"


def asked(spread):
    """A map opened, or a second one where the first is faulty; its drops with several loads and its segments asked for, at times an edit between them; the
    seat closed."""
    at = random.randrange(8)
    lines = [f"open {at} {100 + at} {formed(100 + at, spread)}" for _ in range(2)]
    for _ in range(random.randint(1, 5)):
        lines.append(pick([drops(at), lending("mill", at, 12)]))
        if chance(30):
            call = pick(["place", "move"])
            lines.append(f"{call} {at} {random.randrange(32)} {part(spread)} {part(spread)}{stated(call)}")
    return lines + [f"close {at}"]


def look(spread):
    at = plain(seat())
    call = pick(["pins", "pins", "wire", "wire", "wire", "mill", "mill", "write", "drops", "drops"])
    if call == "pins":
        return f"pins {at}"
    if call == "drops":
        return drops(at)
    if call in ("wire", "mill"):
        return lending(call, at, 65)
    return f"write {at} {plain(pick([0, 16, 32, 511, 512, 1024, 1025, random.randint(0, 530)]))}"


def call(spread):
    dice = random.randrange(100)
    if dice < 45:
        return edit(spread)
    if dice < 60:
        return f"undo {plain(seat())}"
    if dice < 72:
        return f"redo {plain(seat())}"
    if dice < 84:
        return look(spread)
    if dice < 92:
        return opening(spread)
    return f"close {plain(seat())}" if chance(30) else pick([bare, moving])(spread)


def full_journal(spread):
    """Seats that fill the journal together, and calls on it."""
    seats = random.randint(1, 3)
    lines = [f"open {s} {100 + s} new -" for s in range(3)]
    lines += [f"place {s} {p} {GAP * p} {GAP * s} {random.randint(1, 3)} {part_number()}" for s in range(seats) for p in range(2)]
    for i in range(random.randint(250, 300)):
        which = pick([0, 0, 1])
        lines.append(f"move {random.randrange(seats)} {which} {i} {GAP * (50 + which)}")
        if chance(3):
            lines += ["undo 0"] * random.randint(1, 3)
            lines += ["redo 0"] * random.randint(0, 3)
    for _ in range(80):
        lines.append(pick(["undo 0", "undo 1", "redo 0", "redo 1", "pins 0", edit(spread), look(spread), f"move 0 0 {part(spread)} {60 * GAP}", f"move 1 0 {part(spread)} {60 * GAP}"]))
    if chance(30):
        lines += ["undo 0"] * 260 + ["pins 0", edit(spread)] + ["redo 0"] * 260 + ["pins 0"]
    return lines + [pick(["close 0", "close 1"])] + [edit(spread) for _ in range(10)]


def spoiled(line):
    """A line, most often no longer a call: a byte put in, taken out or changed, a word more or fewer, or made long."""
    words = line.split(" ")
    what = random.randrange(9)
    at = random.randrange(len(line) + 1)
    odd = pick(list(b"\t\0\r,-+#xG 09") + [255])
    if what == 0:
        return line[:at].encode() + bytes([odd]) + line[at:].encode()
    if what == 1:
        return line[:at].encode() + line[at + 1:].encode()
    if what == 2:
        return line[:at].encode() + bytes([odd]) + line[at + 1:].encode()
    if what == 3:
        return " ".join(words + [pick(["0", "#", "-"])]).encode()
    if what == 4:
        return " ".join(words[:-1]).encode()
    if what == 5:
        return (" " * pick([0, 1, 5]) + pick(["  ", " "]).join(words) + " " * pick([0, 1, 7])).encode()
    if what == 6:
        return line.ljust(pick([16383, 16384, 16385, 16386, 16387, 20000, 70000])).encode()
    if what == 7:
        words[-1] = "0" * (random.randint(16380, 16388) - len(line)) + words[-1]
        return " ".join(words).encode()
    return pick([b"", b"   ", b"#", b"  # undo 0", b"#" * 17000, b" " * 17000, line.upper().encode(), line.encode() + b"\r", b"\r\r"])


def log():
    spread = pick([1, 2, 3, 3, 5, 9, 30])
    kind = random.randrange(10)
    if kind == 0:
        lines = full_journal(spread)
    elif kind == 1:
        lines = [bare(spread) for _ in range(120)]
    elif kind == 2:
        lines = [pick([opening(spread), opening(spread), f"close {seat()}", look(spread)]) for _ in range(150)]
    elif kind == 3:
        lines = [line for _ in range(40) for line in asked(spread)]
    elif kind == 4:
        lines = [moving(spread) for _ in range(120)]
    else:
        lines = [f"open {s} {100 + s} {pick(['old', 'new'])} -" for s in range(8) if chance(60)] + [call(spread) for _ in range(300)]
    spoil = pick([0, 0, 0, 2, 10])
    ends = pick([[b"\n"], [b"\n"], [b"\r\n"], [b"\n", b"\r\n"]])
    text = b"".join((spoiled(line) if chance(spoil) else line.encode()) + pick(ends) for line in lines)
    return text[: -pick([1, 2])] if chance(10) else text


if __name__ == "__main__":
    random.seed(int(sys.argv[1]))
    sys.stdout.buffer.write(log())
