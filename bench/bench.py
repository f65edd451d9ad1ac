#!/usr/bin/env python3
"""Compares and measures the proved programs: bench.py agree [FIRST LAST] | calls | wire | drops | mill | stack | frames. README.md beside it says what each does."""
import os
import random
import re
import resource
import shutil
import subprocess
import sys
import tempfile
from pathlib import Path

sys.dont_write_bytecode = True
import random_log

HERE = Path(__file__).resolve().parent
CRATES = HERE.parent / "crates"
KIT = Path(os.environ.get("RATTLE_HOME") or Path(os.path.realpath(shutil.which("rt") or "rt")).parent.parent)
TOOLS = KIT / "toolchain"
EMULATOR = TOOLS / "bin" / "qemu-x86_64"


def run(command, log, stack=None):
    """Runs a program on a log: what it wrote (None if it did not end well), and its seconds of processor time."""
    if EMULATOR.exists():
        command = [str(EMULATOR)] + (["-s", str(stack)] if stack else []) + command
    elif stack:
        command = ["setarch", "-R"] + command  # without it the system shifts the stack at random

    def narrow():
        if stack and not EMULATOR.exists():
            resource.setrlimit(resource.RLIMIT_STACK, (stack, stack))

    with tempfile.TemporaryFile() as given, tempfile.TemporaryFile() as wrote:
        given.write(log)
        given.seek(0)
        child = subprocess.Popen(command, stdin=given, stdout=wrote, stderr=subprocess.DEVNULL, env={"PATH": os.defpath}, preexec_fn=narrow)
        _, status, used = os.wait4(child.pid, 0)
        wrote.seek(0)
        return (wrote.read() if status == 0 else None), used.ru_utime + used.ru_stime


def built(name):
    """A proved program, as `rt run` in its crate's folder builds it."""
    program = CRATES / name / "out" / name
    if not program.exists():
        sys.exit(f"{program} is not there: run rt run in {CRATES / name} first")
    return program


def proved(name):
    """The command of a proved program."""
    program = built(name)
    return [str(TOOLS / "lib" / "ld-linux-x86-64.so.2"), "--library-path", str(TOOLS / "lib"), str(program)]


def plain(folder, *words):
    """The command of replay.c, built for the processor that the proved programs are built for."""
    compiler = "gcc" if os.uname().machine == "x86_64" else "x86_64-linux-gnu-gcc"
    program = f"{folder}/replay"
    subprocess.run([compiler, "-O2", "-static", *words, "-o", program, HERE / "replay.c"], check=True)
    return [program]


def map_answer(replay, text):
    """What wiremap must print for a map, in hex, worked out from what a replay prints."""
    job = 1 if len(text) < 4 else int(text[:4], 16)
    # A line of a log takes 4,200 bytes of a map; any map above 384 bytes is refused alike.
    wrote = run(replay, f"open 0 {job} old {text[:8400]}\nwire 0 1 64 lower\n".encode())[0].decode().splitlines()
    if wrote[0] != "0" or wrote[1].startswith("refused"):
        return f"{wrote[0] if wrote[0] != '0' else wrote[1]}\n".encode()
    length, runs, weighed = (wrote[1].split()[i] for i in (2, 4, 8))
    lines = [f"job {job} length {length} runs {runs} weighed {weighed}"] + wrote[2 : 2 + int(runs)]
    return "".join(f"{line}\n" for line in lines).encode()


def agree(first=1, last=100):
    """The proved programs and replay.c on logs and maps at random; one on which they differ is kept."""
    seeds = range(int(first), int(last) + 1)
    differ = 0
    with tempfile.TemporaryDirectory() as folder:
        replay, wiremap, other = proved("replay"), proved("wiremap"), plain(folder, "-DEVERY_CHOICE=12")
        for seed in seeds:
            random.seed(seed)
            log = random_log.log()
            text = random_log.pin_map("old", random.choice([0, 1, 7, 65535]), random.choice([1, 3, 9]))
            data = b"" if text == "-" else bytes.fromhex(text)
            for name, command, given, wanted in (("replay", replay, log, run(other, log)[0]), ("wiremap", wiremap, data, map_answer(other, text))):
                if wanted is None or run(command, given)[0] != wanted:
                    differ += 1
                    Path(f"{name}-{seed}.differs").write_bytes(given)
                    print(f"{name} differs on what is now in {name}-{seed}.differs")
    print(f"{len(seeds)} logs and {len(seeds)} maps, {differ} differ")


def best_times(programs, logs, turns=25):
    """The least processor time of each program on each log, by turns."""
    best = {}
    for _ in range(turns):
        for name, command in programs.items():
            for log in logs:
                wrote, seconds = run(command, log.encode())
                assert wrote is not None, name
                best[name, log] = min(seconds, best.get((name, log), seconds))
    return best


def ratio(what, took):
    """Prints what both programs took, in seconds, and their ratio."""
    for name, seconds in took.items():
        print(f"{name}: {seconds * 1000:.0f} ms for {what}")
    print(f"ratio {took['proved'] / took['plain C']:.2f}")


def calls():
    """The time of 10,000 calls on a full journal (D4's desk), both programs by turns, the best of 25."""
    fill = ["open 0 7 old -", "open 1 9 old -", "place 0 0 0 0 1 0"] + [f"move 0 0 {20 * x} 0" for x in range(1, 256)]
    fill = "\n".join(fill) + "\n"
    then = fill + "undo 0\nplace 1 0 40 40 1 0\nredo 0\nplace 1 0 40 40 1 0\n" * 2500
    with tempfile.TemporaryDirectory() as folder:
        programs = {"proved": proved("replay"), "plain C": plain(folder)}
        for name, command in programs.items():
            assert run(command, then.encode())[0].endswith(b"0\nrefused 12\n" * 2), name
        best = best_times(programs, (fill, then))
    ratio("10,000 calls on a full journal", {name: best[name, then] - best[name, fill] for name in programs})


def full_boards():
    """Boards of 32 pins: each hanging on the one before it, and 20 at random."""
    chain = [[(40 * p, 20 * p) for p in range(32)]]
    random.seed(1)
    scattered = [[(20 * x, 20 * y) for x, y in zip(random.sample(range(-500, 500), 32), random.sample(range(-500, 500), 32))] for _ in range(20)]
    return {"a chain": chain, "at random": scattered}


def map_of(form, places):
    """The map of job 7 with pins at these places, numbered from 0, all in net 1."""
    byte_3 = {"old": 0, "new": 1}[form]
    return b"".join(random_log.record(form, 7, p, byte_3, x, y, 0) for p, (x, y) in enumerate(places))


def drops_call(seat):
    """A line that asks for a seat's drops: 12 volts, a thousandth of an ohm a step, a load at each pin, amps and watts by turns."""
    loads = ",".join(f"w{random_log.bits(7 * p)}" if p % 2 else f"a{random_log.bits(0.3 * p)}" for p in range(32))
    return f"drops {seat} 1 {random_log.bits(12)} {random_log.bits(0.001)} {loads}\n"


def wire():
    """The time of 2,000 wirings of 32 pins, both programs by turns, the best of 25, less the time of reading the same lines: with one number left out they
    are refused with 16. Once with the whole answer printed, once with no room for a leg, where the wiring is found and 19 is printed."""
    with tempfile.TemporaryDirectory() as folder:
        programs = {"proved": proved("replay"), "plain C": plain(folder)}
        for what, boards in full_boards().items():
            lists = [[[str(place[i]) for place in board] for i in (0, 1)] for board in boards]
            logs = [
                "".join(f"bare {room} {','.join(xs)} {','.join(ys[:count])}\n" for xs, ys in lists) * (2000 // len(boards))
                for room, count in ((0, 31), (64, 32), (0, 32))
            ]
            wrote = [[run(command, log.encode())[0] for log in logs] for command in programs.values()]
            assert wrote[0] == wrote[1] and wrote[0][0] == b"refused 16\n" * 2000 and wrote[0][2] == b"refused 19\n" * 2000
            best = best_times(programs, logs)
            for how, log in (("printed", logs[1]), ("with no room", logs[2])):
                ratio(f"2,000 wirings of 32 pins, {what}, {how}", {name: best[name, log] - best[name, logs[0]] for name in programs})


def beside_wirings(what_calls, call_of):
    """The time of 2,000 calls on a seat and of 2,000 wirings of the same seat, printed; a full board of 32 pins, opened from a map by the log's first line.
    Both programs by turns, the best of 25, less the time of reading the same lines: naming seat 8 they are refused with 1."""
    asked = {"wirings": lambda seat: f"wire {seat} 1 64\n", what_calls: call_of}
    with tempfile.TemporaryDirectory() as folder:
        programs = {"proved": proved("replay"), "plain C": plain(folder)}
        for what, boards in full_boards().items():
            opened = f"open 0 7 old {map_of('old', boards[0]).hex()}\n"
            logs = {name: [opened + call(seat) * 2000 for seat in (8, 0)] for name, call in asked.items()}
            every = [log for pair in logs.values() for log in pair]
            wrote = [[run(command, log.encode())[0] for log in every] for command in programs.values()]
            assert wrote[0] == wrote[1] and all(wrote[0][i] == b"0\n" + b"refused 1\n" * 2000 for i in (0, 2))
            assert wrote[0][1].count(b"\n0 length ") == wrote[0][3].count(b"\n0 ") == 2000
            best = best_times(programs, every)
            took = {call: {name: best[name, log] - best[name, read] for name in programs} for call, (read, log) in logs.items()}
            for call, seconds in took.items():
                ratio(f"2,000 {call} of a seat of 32 pins, {what}", seconds)
            for name in programs:
                print(f"{name}: {what_calls} take {took[what_calls][name] / took['wirings'][name]:.2f} of the time of wirings")


def drops():
    """The time of calls for the drops of a seat, beside wirings."""
    beside_wirings("calls for drops", drops_call)


def mill():
    """The time of calls for the segments of a seat, beside wirings."""
    beside_wirings("calls for segments", lambda seat: f"mill {seat} 1 64\n")


def smallest(command, log):
    """The smallest stack, to 4 KiB, with which a program still gives the answer that it gives with ample stack."""
    page = 4096
    answer = run(command, log, 8192 * 1024)[0]
    assert answer is not None
    least = 32 if EMULATOR.exists() else 1  # the emulator gives a program no less
    low, high = least - 1, 2048
    while high - low > 1:
        middle = (low + high) // 2
        if run(command, log, middle * page)[0] == answer:
            high = middle
        else:
            low = middle
    return f"{high * page // 1024} KiB" + (" or less" if high == least else "")


def stack():
    """The smallest stack on which a full board is wired: 32 pins one behind the other, so that the asking goes deepest."""
    places = [(40 * p, 20 * p) for p in range(32)]
    xs, ys = (",".join(str(place[i]) for place in places) for i in (0, 1))
    pin_map, new_map = map_of("old", places), map_of("new", places)
    opened = f"open 0 7 old {pin_map.hex()}\n"
    bare = f"bare 64 {xs} {ys}\n"
    wired = opened + "wire 0 1 64\n"
    every = wired + drops_call(0) + "mill 0 1 64\nwrite 0 1024\nmove 0 0 0 9\nremove 0 0\nplace 0 0 0 0 1 0\nundo 0\nredo 0\npins 0\nclose 0\n" + bare
    every += f"open 0 7 new {new_map.hex()}\nover 7 1024 {pin_map.hex()}\nback 7 1024 {new_map.hex()}\n"
    replay = proved("replay")
    for what, log in (("no call", "#\n"), ("a drawing shown", "pins 0\n"), ("a map opened and wired", wired), ("bare wiring", bare), ("every call", every)):
        print(f"replay, {what}: {smallest(replay, log.encode())}")
    print(f"wiremap: {smallest(proved('wiremap'), pin_map)}")


# How often a function that calls itself stands on the stack at most: for every pin of a chain; for each of the eight runs that a pin may have, and once more; for every digit.
DEEPEST = {"least::Reached::pin_best": 32, "least::Reached::weigh": 9, "text::put::put_decimal": 20}


def disassembled(program):
    """The frame of each function of a program, in bytes with its return address, and the functions that it calls."""
    dump = "objdump" if os.uname().machine == "x86_64" else "x86_64-linux-gnu-objdump"
    text = subprocess.run([dump, "-d", "--no-show-raw-insn", built(program)], check=True, capture_output=True, text=True).stdout
    frames, callees, name, probing, entered = {}, {}, None, False, False
    for line in text.splitlines():
        if begun := re.match(r"[0-9a-f]+ <(.+)>:$", line):
            name, probing, entered = begun[1], False, False
            frames[name], callees[name] = 8, set()
        elif (step := re.match(r"\s+[0-9a-f]+:\s+(\S+)\s*(.*)$", line)) and name:
            what, operands = step[1], step[2]
            less = re.match(r"\$0x([0-9a-f]+),%r(sp|11)$", operands) if what.startswith("sub") else None
            if what == "push" and not entered:
                frames[name] += 8
            elif less and less[2] == "11":  # a large frame is taken page by page, down to where r11 points
                frames[name] += int(less[1], 16)
                probing = True
            elif less and probing and int(less[1], 16) == 4096:
                probing = False
            elif less:
                frames[name] += int(less[1], 16)
            elif what.startswith("call") or what == "jmp":
                entered = True
                if (to := re.search(r"<([^>+]+)>", operands)) and to[1] != name or what.startswith("call"):
                    callees[name].add(to[1] if to else "")
            elif what in ("pop", "ret"):
                entered = True
    return frames, callees


def deepest(frames, callees, name):
    """What stands on the stack where it is deepest below a function: its bytes, and each function with its own."""
    below = max((deepest(frames, callees, to) for to in callees[name] if to in frames and to != name), default=(0, []))
    times = DEEPEST[name] if name in callees[name] else 1
    return times * frames[name] + below[0], [(times * frames[name], name)] + below[1]


def frames():
    """What each program and the wiring alone keep on the stack where it is deepest, read off the compiled frames. The start of a program comes on top."""
    for program, first in (("wiremap", "main"), ("replay", "main"), ("replay", "wiring::wire_feed")):
        total, path = deepest(*disassembled(program), first)
        print(f"{program}, {first}: {total} bytes, {total / 1024:.1f} KiB: " + ", ".join(f"{name} {bytes}" for bytes, name in path if bytes >= 64))


if __name__ == "__main__":
    tasks = {"agree": agree, "calls": calls, "wire": wire, "drops": drops, "mill": mill, "stack": stack, "frames": frames}
    if len(sys.argv) < 2 or sys.argv[1] not in tasks:
        sys.exit(__doc__)
    tasks[sys.argv[1]](*sys.argv[2:])
