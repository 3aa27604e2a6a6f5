#!/usr/bin/env python3
"""desk.py DIRECTORY: tries the desk's program and its command bin/desk over pipes, with the program built in DIRECTORY.

Super frames are coded and read back; the last two have MSC bits zero, so that every earlier frame comes out of the cell interleaver. Then come
inputs and outputs that fail, and arguments that are no job: what is said must be the line expected, whole super frames only must have been
written, and bin/desk must end with a status that is not 0.
"""
import os
import resource
import signal
import subprocess
import sys
import tempfile
import threading

COMMAND = os.path.join(os.path.dirname(os.path.abspath(__file__)), "..", "bin", "desk")
FAC = 27
SUPER_FRAMES = 5
# settings, bits of an SDC block, bits of a multiplex frame, bytes of a super frame's cells, frames that each super frame finishes
EXAMPLES = [
    ("000300000100011D0000", 798, 10174, 2 * (390 + 810 + 17754), [0, 2, 3, 3, 3]),
    ("03050100010100640101", 326, 8797, 2 * (390 + 664 + 15638), [3, 3, 3, 3, 3]),
]
UNREAD = "super frame 0: not read: the input failed\nsuper frames: 0\n"
UNWRITTEN = "super frame 0: not written: the output failed\nsuper frames: 0\n"
INSIDE = "super frame 0: the input ends inside it\nsuper frames: 0\n"


class Draw:
    """Pseudo-random bytes."""

    def __init__(self, seed):
        self.x = seed

    def block(self, bits):
        """A block's bytes, spare bits zero."""
        count = (bits + 7) // 8
        out = bytearray()
        for _ in range(count):
            self.x = (self.x * 1103515245 + 12345) % 2147483648
            out.append(self.x // 65536 % 256)
        spare = 8 * count - bits
        out[-1] &= 256 - (1 << spare)
        return bytes(out)


def must(condition, what):
    if not condition:
        sys.exit("desk.py: " + what)


def run(words, data, chunk=1009, **kinds):
    """Feeds the data in chunks that fit no block; gives status, output and what was said."""
    options = {"stdin": subprocess.PIPE, "stdout": subprocess.PIPE, "stderr": subprocess.PIPE, **kinds}
    child = subprocess.Popen(words, **options)

    def feed():
        try:
            for at in range(0, len(data), chunk):
                child.stdin.write(data[at:at + chunk])
                child.stdin.flush()
            child.stdin.close()
        except BrokenPipeError:
            pass

    feeder = threading.Thread(target=feed if child.stdin else lambda: None)
    feeder.start()
    said = []
    listener = threading.Thread(target=lambda: said.append(child.stderr.read()))
    listener.start()
    out = child.stdout.read() if child.stdout else b""
    feeder.join()
    listener.join()
    return child.wait(), out, said[0].decode()


def both(program, words, data, what, out, said, good, **kinds):
    """The program says and writes what is expected, and so does the command, which ends with 0 exactly if all went well."""
    for start, wanted in ((program, 0), (COMMAND, 0 if good else 1)):
        status, written, heard = run([start] + words, data, **kinds)
        must(heard == said, f"{what}: said {heard!r}, not {said!r}")
        must(written == out, f"{what}: the output is not what it must be")
        must(status == wanted, f"{what}: {start} ended with {status}")
    print(f"  {what}: " + "; then ".join(said.splitlines()))


def make(sdc, frame, seed):
    """Super frames, each a list of blocks: FAC, SDC, three multiplex frames."""
    draw = Draw(seed)
    zeros = bytes((frame + 7) // 8)
    frames = []
    for m in range(SUPER_FRAMES):
        msc = [zeros if m >= SUPER_FRAMES - 2 else draw.block(frame) for _ in range(3)]
        frames.append([draw.block(8 * FAC), draw.block(sdc)] + msc)
    return frames


def expected(frames, finished):
    """What `desk read` writes for them, super frame by super frame."""
    waiting = [msc for blocks in frames for msc in blocks[2:]]
    out = []
    for blocks, n in zip(frames, finished):
        out.append(blocks[0] + blocks[1] + bytes([n]) + b"".join(waiting[:n]))
        waiting = waiting[n:]
    return out


def example(program, settings, sdc, frame, cell_bytes, finished):
    frames = make(sdc, frame, 1)
    bits = b"".join(b"".join(blocks) for blocks in frames)
    blocks = expected(frames, finished)
    status, cells, said = run([program, "code", settings], bits)
    must(status == 0 and len(cells) == SUPER_FRAMES * cell_bytes and said == "super frames: 5\n", "desk code: " + said)
    print(settings + ": " + said.strip())
    both(program, ["code", settings], bits, "coded again", cells, "super frames: 5\n", True)
    both(program, ["read", settings], cells, "read back", b"".join(blocks), "super frames: 5\n", True)
    _, grids, said = run([program, "grid", settings], cells)
    must(said == "super frames: 5\n", "desk grid: " + said)
    both(program, ["ungrid", settings], grids, "off the grid again", cells, "super frames: 5\n", True)
    one = len(bits) // SUPER_FRAMES
    inside = "super frame 2: the input ends inside it\nsuper frames: 2\n"
    both(program, ["code", settings], bits[:2 * one + 5], "input that ends inside a super frame", cells[:2 * cell_bytes], inside, False)
    both(program, ["code", settings], bits[:5 * one // 2], "half a super frame", cells[:2 * cell_bytes], inside, False)
    both(program, ["code", settings], bits[:1], "one byte", b"", INSIDE, False)
    both(program, ["code", settings], b"", "no input", b"", "super frames: 0\n", True)
    spare = bytearray(bits[:2 * one])
    spare[one + FAC + (sdc + 7) // 8 - 1] |= 1
    refused = "super frame 1: refused: 11, a spare bit set\nsuper frames: 1\n"
    both(program, ["code", settings], bytes(spare), "a spare bit set", cells[:cell_bytes], refused, False)
    both(program, ["read", settings], cells[:cell_bytes + 1], "cells that end inside a super frame", blocks[0],
         "super frame 1: the input ends inside it\nsuper frames: 1\n", False)
    damaged = bytearray(cells)
    damaged[cell_bytes:cell_bytes + 2] = b"\2\0"
    refused = "super frame 1: refused: 13, a cell that is no point of its constellation, or a wrong filler, block 0, FAC\nsuper frames: 1\n"
    both(program, ["read", settings], bytes(damaged), "a cell that is no point", blocks[0], refused, False)
    failures(program, ["code", settings], bits)
    failures(program, ["read", settings], cells)
    part(program, ["code", settings], bits, cells, cell_bytes)


def failures(program, words, data):
    """Inputs and outputs that fail, and a reader that goes away."""
    with open("/dev/full", "wb") as full:
        both(program, words, data, "output to a full device", b"", UNWRITTEN, False, stdout=full)
    closed = ["sh", "-c", 'exec "$0" "$@" >&-']
    for start, wanted in ((program, 0), (COMMAND, 1)):
        status, _, said = run(closed + [start] + words, data)
        must(status == wanted and said == UNWRITTEN, f"output to a closed descriptor: {status}, {said!r}")
    closed = ["sh", "-c", 'exec "$0" "$@" <&-']
    for start, wanted in ((program, 0), (COMMAND, 1)):
        status, out, said = run(closed + [start] + words, b"")
        must(status == wanted and said == UNREAD and out == b"", f"input from a closed descriptor: {status}, {said!r}")
    folder = os.open("/", os.O_RDONLY)
    both(program, words, b"", "input from a directory", b"", UNREAD, False, stdin=folder)
    os.close(folder)
    for start, wanted in ((program, 0), (COMMAND, 1)):
        reader, writer = os.pipe()
        os.close(reader)
        status, _, said = run([start] + words, data, stdout=writer)
        os.close(writer)
        must(status == wanted and said == UNWRITTEN, f"a reader that goes away: {status}, {said!r}")
    print("  output to a closed descriptor, input from one, a reader that goes away: as they must be")


def part(program, words, data, cells, cell_bytes):
    """A write that fails after a part: the super frames counted stand whole in the file, and a part of one more."""
    room = cell_bytes + 1000

    def limited():
        signal.signal(signal.SIGXFSZ, signal.SIG_IGN)
        resource.setrlimit(resource.RLIMIT_FSIZE, (room, room))

    with tempfile.NamedTemporaryFile() as file:
        status, _, said = run([program] + words, data, stdout=file, preexec_fn=limited)
        with open(file.name, "rb") as again:
            written = again.read()
    must(said == "super frame 1: not written: the output failed\nsuper frames: 1\n" and status == 0, f"a write that comes short: {said!r}")
    must(written == cells[:room], "a write that comes short: the file is not the beginning of the output")
    print("  a write that comes short after a part: " + "; then ".join(said.splitlines()))


def lines(program, words, good, answer, wrong):
    """A job on lines: good ones in odd chunks; wrong ones in front of them, each with what is said of it; inputs and outputs that fail."""
    job = words[0]
    for chunk in (1009, 7, 1):
        both(program, words, good, f"{job}: good lines, {chunk} bytes at a time", answer, "", True, chunk=chunk)
    both(program, words, b"", job + ": no line", b"", "", True)
    for what, line, said in wrong:
        both(program, words, line.encode() + b"\n" + good, f"{job}: a line, {what}", answer, f"line 1: {said}\n", False)
    every = b"".join(line.encode() + b"\n" for _, line, _ in wrong)
    heard = "".join(f"line {i}: {said}\n" for i, (_, _, said) in enumerate(wrong, 1))
    both(program, words, every + good, job + ": all of them", answer, heard, False, chunk=13)
    first, count = good.split(b"\n")[0], good.count(b"\n")
    inside = f"line {count + 1}: the input ends inside it\n"
    both(program, words, good + first, job + ": a line without its feed", answer, inside, False)
    both(program, words, good + first[:1], job + ": a byte after the last line", answer, inside, False)
    with open("/dev/full", "wb") as full:
        both(program, words, good, job + ": output to a full device", b"", "line 1: not written: the output failed\n", False, stdout=full)
    folder = os.open("/", os.O_RDONLY)
    both(program, words, b"", job + ": input from a directory", b"", "line 1: not read: the input failed\n", False, stdin=folder)
    os.close(folder)


def lost_line(fac=0, sdc=0, frames=0):
    return f"lost: FAC {fac}, SDC {sdc}, frames {frames}\n"


def reading_on(program, settings, sdc, frame, cell_bytes, finished):
    """Undamaged runs read as `desk read` with seven zero bytes before each super frame; a spoiled super frame costs what the cell interleaver spreads it over, and nothing after that."""
    words = ["read-on", settings]
    frames = make(sdc, frame, 5)
    blocks = expected(frames, finished)
    _, cells, _ = run([program, "code", settings], b"".join(b"".join(of_one) for of_one in frames))
    five = "super frames: 5\n"
    plain = [bytes(7) + block for block in blocks]
    both(program, words, cells, "read on, undamaged", b"".join(plain), five + lost_line(), True)
    both(program, words, b"", "read-on: no input", b"", "super frames: 0\n" + lost_line(), True)
    both(program, words, cells[:cell_bytes + 1], "read-on: cells that end inside a super frame", plain[0],
         "super frame 1: the input ends inside it\nsuper frames: 1\n" + lost_line(), False)
    with open("/dev/full", "wb") as full:
        both(program, words, cells, "read-on: output to a full device", b"", UNWRITTEN + lost_line(), False, stdout=full)
    damaged = bytearray(cells)
    at = 2 * cell_bytes + 2 * 130
    damaged[at:at + 2] = b"\2\0"
    one = list(plain)
    fac = bytearray(one[2])
    fac[1] = 1
    fac[7 + 9:7 + 18] = bytes(9)
    one[2] = bytes(fac)
    both(program, words, bytes(damaged), "read on over one cell of FAC block 1", b"".join(one), five + lost_line(fac=1), True)
    spoiled = cells[:cell_bytes] + bytes(cell_bytes) + cells[2 * cell_bytes:]
    size, depth, at, out = (frame + 7) // 8, 5 if finished[0] == 0 else 1, 0, b""
    for m, block in enumerate(blocks):
        gone = [3 - (depth - 1) <= f <= 5 for f in range(at, at + finished[m])]
        at += finished[m]
        head = FAC + (sdc + 7) // 8
        body = b"".join(bytes(size) if lost else block[head + 1 + k * size:head + 1 + (k + 1) * size] for k, lost in enumerate(gone))
        marks = bytes([m == 1] * 4) + bytes(gone) + bytes(3 - len(gone))
        out += marks + (bytes(head) if m == 1 else block[:head]) + block[head:head + 1] + body
    lost = sum(3 - (depth - 1) <= f <= 5 for f in range(sum(finished)))
    both(program, words, spoiled, "read on over a spoiled super frame", out, five + lost_line(3, 1, lost), True)


NO_HOLD_FILE = "hold file: refused: 18, a hold file that is none of these settings\n"
FILE_UNREAD = "hold file: not read: the input failed\n"
FILE_UNWRITTEN = "hold file: not written: the output failed\n"


def old_form(new):
    """Each number in four digits, two's complement, in place of one."""
    heading, *slots = new.decode().split("\n")
    return "\n".join([heading] + ["".join(("FFF" if digit > "7" else "000") + digit for digit in slot) for slot in slots]).encode()


def read_file(name):
    with open(name, "rb") as file:
        return file.read()


def write_file(name, data):
    with open(name, "wb") as file:
        file.write(data)


def hold_files(program, settings, sdc, frame, cell_bytes, finished):
    """A transmitter's power-down and power-up: a run in two halves sends the cells of the uninterrupted one, and leaves its file. Files there and back, refused ones, and previews."""
    frames = make(sdc, frame, 6)
    bits = [b"".join(of_one) for of_one in frames]
    everything = b"".join(bits)
    with tempfile.TemporaryDirectory() as folder:
        place = lambda name: os.path.join(folder, name)
        five = "super frames: 5\n"
        _, cells, _ = run([program, "code", settings], everything)
        both(program, ["code", settings, "-"], everything, "from a reset", cells, five, True)
        both(program, ["code", settings, "-", place("whole")], everything, "to a hold file", cells, five, True)
        whole = read_file(place("whole"))
        for half in range(SUPER_FRAMES + 1):
            first, second = b"".join(bits[:half]), b"".join(bits[half:])
            for start in (program, COMMAND):
                status, one, said = run([start, "code", settings, "-", place("held")], first)
                must(status == 0 and said == f"super frames: {half}\n", f"the first half: {status}, {said!r}")
                status, two, said = run([start, "code", settings, place("held"), place("held")], second)
                must(status == 0 and said == f"super frames: {SUPER_FRAMES - half}\n", f"the second half: {status}, {said!r}")
                must(one + two == cells, "the halves send other cells than the whole run")
                must(read_file(place("held")) == whole, "the halves leave another file than the whole run")
        print(f"  power-down and power-up after 0 to {SUPER_FRAMES} super frames: the cells and the file of the uninterrupted run")
        middle_of_runs(program, settings, bits, cells, cell_bytes, place)
        previews(program, settings, bits, cells, cell_bytes, place)
        begun = len(whole.split(b"\n")[1]) // 2
        must(len(whole) == 3 + (5 if finished[0] == 0 else 1) * (2 * begun + 1), "a new file's length")
        old = old_form(whole)
        both(program, ["to-old", settings], whole, "a new file to an old one", old, "", True)
        both(program, ["to-new", settings], old, "and back", whole, "", True)
        turned_wrong(program, ["to-new", settings], old, 8, place)
        turned_wrong(program, ["to-old", settings], whole, 2, place)
        for name, data in wrong_files(whole, 2):
            write_file(place("wrong"), data)
            both(program, ["code", settings, place("wrong")], everything, "from a file, " + name, b"", NO_HOLD_FILE, False)
        both(program, ["code", settings, place("none")], everything, "from no file", b"", FILE_UNREAD, False)
        both(program, ["code", settings, folder], everything, "from a directory", b"", FILE_UNREAD, False)
        both(program, ["code", settings, ""], everything, "from an empty name", b"", FILE_UNREAD, False)
        both(program, ["code", settings, "-", place("none/none")], everything, "to a file that cannot be made", cells, FILE_UNWRITTEN + five, False)
        both(program, ["code", settings, "-", "/dev/full"], everything, "to a full device", cells, FILE_UNWRITTEN + five, False)


# settings whose super frames, grids and hold files are the longest, as above
LARGEST = ("00050000030000000000", 1680, 28788, 2 * (390 + 1692 + 36708), [0, 2, 3, 3, 3])


def largest(program):
    """The program has room for the longest super frames, grids and hold files that any settings have."""
    settings, sdc, frame, cell_bytes, finished = LARGEST
    frames = make(sdc, frame, 8)
    blocks = expected(frames, finished)
    five = "super frames: 5\n"
    with tempfile.TemporaryDirectory() as folder:
        held = os.path.join(folder, "held")
        bits = [b"".join(of_one) for of_one in frames]
        _, cells, said = run([program, "code", settings], b"".join(bits))
        must(said == five and len(cells) == SUPER_FRAMES * cell_bytes, "desk code, the largest: " + said)
        run([program, "code", settings, "-", held], b"".join(bits[:-1]))
        both(program, ["preview", settings, held], bits[-1], "the largest, shown", cells[-cell_bytes:], "super frames: 1\n", True)
        new = read_file(held)
    both(program, ["read", settings], cells, "the largest, read back", b"".join(blocks), five, True)
    both(program, ["read-on", settings], cells, "the largest, read on", b"".join(bytes(7) + block for block in blocks), five + lost_line(), True)
    _, grids, said = run([program, "grid", settings], cells)
    must(said == five and len(grids) == SUPER_FRAMES * 2 * 62235, "desk grid, the largest: " + said)
    both(program, ["ungrid", settings], grids, "the largest, off the grid again", cells, five, True)
    old = old_form(new)
    must(len(new) == 61188 and len(old) == 244728, "the longest hold files")
    both(program, ["to-old", settings], new, "the longest new file to an old one", old, "", True)
    both(program, ["to-new", settings], old, "and back", new, "", True)
    both(program, ["to-new", settings], old + b"\n", "with one more line feed", b"", NO_HOLD_FILE, False)


def wrong_files(file, width):
    """Files that 18 refuses; a cell has so many digits."""
    body = lambda at, digits: file[:at] + digits + file[at + len(digits):]
    return [
        ("empty", b""), ("without its last line feed", file[:-1]), ("with one more", file + b"\n"), ("longer than any", file * (300000 // len(file) + 1)),
        ("a cell (0, 0)", body(3, b"0" * width)), ("a small letter", body(3, b"f" * width)), ("no digit", body(3, b"G")), ("position 5", body(0, b"5")), ("count 9", body(1, b"9")),
        ("no line feed after count", body(2, b" ")), ("lines ended by carriage returns", file.replace(b"\n", b"\r")), ("a line of its cells too few", file[:3] + file[3 + width:]),
    ]


def turned_wrong(program, words, file, width, place):
    """A file that is refused leaves nothing behind; inputs and outputs that fail."""
    for name, data in wrong_files(file, width):
        both(program, words, data, f"{words[0]}: a file, {name}", b"", NO_HOLD_FILE, False)
    other = {"to-new": "to-old", "to-old": "to-new"}[words[0]]
    both(program, [other] + words[1:], file, f"{other}: a file of the wrong form", b"", NO_HOLD_FILE, False)
    with open("/dev/full", "wb") as full:
        both(program, words, file, words[0] + ": output to a full device", b"", FILE_UNWRITTEN, False, stdout=full)
    folder = os.open("/", os.O_RDONLY)
    both(program, words, b"", words[0] + ": input from a directory", b"", FILE_UNREAD, False, stdin=folder)
    os.close(folder)


def middle_of_runs(program, settings, bits, cells, cell_bytes, place):
    """A run that ends in a super frame stores what stands after the one before it, and the run goes on from there; after a failed write it stores nothing."""
    one = len(bits[0])
    spare = bytearray(bits[1])
    spare[-1] |= 1
    refused = "super frame 1: refused: 11, a spare bit set\nsuper frames: 1\n"
    inside = "super frame 1: the input ends inside it\nsuper frames: 1\n"
    for what, rest, said in (("a refused super frame", bytes(spare), refused), ("half a super frame", bits[1][:one // 2], inside)):
        both(program, ["code", settings, "-", place("kept")], bits[0] + rest, "to a hold file after " + what, cells[:cell_bytes], said, False)
        both(program, ["code", settings, place("kept")], b"".join(bits[1:]), "and on from there", cells[cell_bytes:], f"super frames: {SUPER_FRAMES - 1}\n", True)
    write_file(place("kept"), b"as it was")
    with open("/dev/full", "wb") as full:
        both(program, ["code", settings, "-", place("kept")], b"".join(bits), "to a hold file and a full device", b"", UNWRITTEN, False, stdout=full)
    must(read_file(place("kept")) == b"as it was", "after a failed write a hold file is stored")


def previews(program, settings, bits, cells, cell_bytes, place):
    """At each moment of a run a preview shows the cells that the next super frame then sends, and leaves the file."""
    for m in range(SUPER_FRAMES):
        run([program, "code", settings, "-", place("now")], b"".join(bits[:m]))
        held = read_file(place("now"))
        words = ["preview", settings, place("now")]
        both(program, words, bits[m], f"preview of super frame {m}", cells[m * cell_bytes:(m + 1) * cell_bytes], "super frames: 1\n", True)
        must(read_file(place("now")) == held, "a preview leaves its file")
    wrong = "super frame 0: refused: 9, an input of the wrong length\nsuper frames: 0\n"
    for what, data in (("no input", b""), ("a byte less", bits[0][:-1]), ("a byte more", bits[0] + b"\0"), ("two super frames", bits[0] * 2), ("much more", bytes(200000))):
        both(program, words, data, "preview: " + what, b"", wrong, False)
    with open("/dev/full", "wb") as full:
        both(program, words, bits[0], "preview: output to a full device", b"", UNWRITTEN, False, stdout=full)
    write_file(place("now"), held[:-1])
    both(program, words, bits[0], "preview: a hold file that is none", b"", NO_HOLD_FILE, False)
    both(program, ["preview", settings, "-"], bits[0], "preview: no hold file", b"", FILE_UNREAD, False, cwd=os.path.dirname(place("now")))


KINDS = os.path.join(os.path.dirname(os.path.abspath(__file__)), "..", "crates", "gridkinds", "stdout")
FAC_KIND, SDC_KIND, MSC_KIND = 4, 5, 6


def kinds_of(mode):
    """The kinds of a mode's places with occupancy 3, symbol after symbol: the lines that the second program writes too."""
    rows = {}
    with open(KINDS) as lines_of:
        for line in map(str.strip, lines_of):
            if line.isalpha():
                rows[line] = []
                last = line
            else:
                rows[last] += map(int, line)
    return rows[mode]


def on_grid(kinds, cells):
    """A super frame's cells by place: kind, real, imaginary; cells of each kind in their order, FAC before SDC before MSC in the input."""
    first = {FAC_KIND: 0}
    for kind in (SDC_KIND, MSC_KIND):
        first[kind] = first[kind - 1] + 4 * kinds.count(kind - 1)
    out = bytearray()
    for kind in kinds:
        out += bytes([kind, 0])
        if kind in first:
            out += cells[first[kind]:first[kind] + 4]
            first[kind] += 4
        else:
            out += bytes(4)
    return bytes(out)


def grids(program):
    """Any numbers as cells, in each mode with occupancy 3: placed where the second program's kinds say, and taken off whatever the kinds and the other places hold."""
    for number, mode in enumerate("ABCD"):
        settings = f"{number:02X}03" + "00" * 8
        kinds = kinds_of(mode)
        one = 4 * sum(kind >= FAC_KIND for kind in kinds)
        cells = Draw(number + 3).block(8 * 3 * one)
        placed = [on_grid(kinds, cells[k * one:(k + 1) * one]) for k in range(3)]
        size = len(placed[0])
        said = "super frames: 3\n"
        for chunk in (1009, 65536, 997):
            both(program, ["grid", settings], cells, f"grid, mode {mode}, {chunk} bytes at a time", b"".join(placed), said, True, chunk=chunk)
        noise = Draw(number + 7).block(8 * 3 * size)
        noisy = bytearray(b"".join(placed))
        for at in range(0, len(noisy), 6):
            width = 6 if noisy[at] < FAC_KIND else 2
            noisy[at:at + width] = noise[at:at + width]
        both(program, ["ungrid", settings], b"".join(placed), f"ungrid, mode {mode}", cells, said, True)
        both(program, ["ungrid", settings], bytes(noisy), f"ungrid, mode {mode}, with other kinds and noise in other places", cells, said, True)
        inside = "super frame 1: the input ends inside it\nsuper frames: 1\n"
        both(program, ["grid", settings], cells[:2 * one - 1], "cells that end inside a super frame", placed[0], inside, False)
        both(program, ["ungrid", settings], noisy[:size + 1], "a grid that ends inside", cells[:one], inside, False)
        for words, data in ((["grid", settings], cells), (["ungrid", settings], noisy)):
            both(program, words, b"", words[0] + ": no input", b"", "super frames: 0\n", True)
            failures(program, words, data)
        part(program, ["grid", settings], cells, b"".join(placed), size)


def nearest(program):
    """Received bits of FAC blocks that `desk code` makes: cell 1 stands for bit 0, -1 for bit 1, of each cell the real axis first."""
    settings, sdc, frame, _, _ = EXAMPLES[0]
    frames = make(sdc, frame, 2)
    _, cells, _ = run([program, "code", settings], b"".join(b"".join(blocks) for blocks in frames))
    bits = "".join("0" if cells[2 * i] == 1 else "1" for i in range(130))
    block = frames[0][0][:9].hex().upper()
    wrong = "".join("10"[int(bits[0])] if i == 0 else "?" if i % 7 == 3 else b for i, b in enumerate(bits))
    good = f"{bits}\n{'?' * 130}\n{wrong}\n".encode()
    answer = f"{block} 0\n{'0' * 18} 0\n{block} 1\n".encode()
    bad = [("empty", ""), ("129 bits", bits[1:]), ("131 bits", bits + "0"), ("a 2", "2" + bits[1:]), ("a blank", bits + " "), ("1000 characters", "0" * 1000)]
    lines(program, ["nearest"], good, answer, [(what, line, "bad line") for what, line in bad])


# bits of the fields of an FAC block, the two reserved ones among them with no value: 001 clauses 6.3.3 and 6.3.4
WIDTHS = [1, 2, 4, 1, 2, 1, 4, 3, None, 24, 2, 1, 4, 1, 5, None]
RESERVED = {8: 2, 15: 7}


def crc8(word):
    """Annex D with x^8 + x^4 + x^3 + x^2 + 1 over 64 bits: ones at the start, the complement at the end."""
    register = 255
    for i in range(63, -1, -1):
        top = register >> 7 ^ word >> i & 1
        register = register << 1 & 255 ^ (0x1D if top else 0)
    return register ^ 255


def fac_block(fields, reserved=0):
    """The eighteen digits of a block; `reserved` stands in its Rfa bits."""
    word, rest = 0, list(fields)
    for k, width in enumerate(WIDTHS):
        value = rest.pop(0) if width else reserved if k == 15 else 0
        word = word << (width or RESERVED[k]) | value
    return f"{word:016X}{crc8(word):02X}"


def fac_fields(program):
    """Lines of FAC fields to blocks and back. The settings of both examples have other numbers in the four fields that must agree."""
    too_large = "refused: 15, a field too large for its bits or against the settings"
    wrong_crc = "refused: 16, a wrong CRC"
    for (settings, *_), agreed in zip(EXAMPLES, ([3, 0, 0, 0], [5, 1, 1, 1])):
        least = [0, 0, *agreed, 0, 0, 0, 0, 0, 0, 0, 0]
        most = [1, 3, *agreed, 15, 7, 0xFFFFFF, 3, 1, 15, 1, 31]
        some = [1, 2, *agreed, 4, 5, 0xE1C2A3, 1, 0, 9, 1, 17]
        as_line = lambda fields: " ".join(map(str, fields))
        good = "".join(as_line(fields) + "\n" for fields in (least, most, some)).encode()
        blocks = "".join(fac_block(fields) + "\n" for fields in (least, most, some)).encode()
        line = as_line(some)
        wrong = [(what, text, "bad line") for what, text in [
            ("empty", ""), ("thirteen numbers", as_line(some[1:])), ("fifteen numbers", line + " 0"), ("two spaces", line.replace(" ", "  ", 1)),
            ("a space in front", " " + line), ("a space behind", line + " "), ("a tab", line.replace(" ", "\t", 1)), ("a comma", line.replace(" ", ", ", 1)),
            ("a minus sign", "-" + line), ("a plus sign", "+" + line), ("a fraction", line + ".0"), ("a letter", line[:-1] + "A"), ("a carriage return", line + "\r"),
            ("a slash, the byte before 0", line + "/"), ("a colon, the byte after 9", line + ":"), ("no digit at all", " " * 13),
            ("256 characters, a part of a longer one perhaps", "0" * (256 - len(line)) + line), ("1000 characters", "0" * 1000),
        ]]
        for k in range(14):
            larger = list(some)
            larger[k] = most[k] + 1 if k not in (2, 3, 4, 5) else 2 ** [4, 1, 2, 1][k - 2] + agreed[k - 2]
            wrong.append((f"field {k} too large", as_line(larger), too_large))
            for beyond in (2 ** 32, 2 ** 64, 10 ** 30):
                wrong.append((f"field {k} beyond {beyond}", as_line(some[:k] + [some[k] + beyond] + some[k + 1:]), too_large))
        for k in range(2, 6):
            wrong.append((f"field {k} against the settings", as_line(some[:k] + [some[k] ^ 1] + some[k + 1:]), too_large))
        zeros = "0" * (255 - len(line)) + line
        lines(program, ["fac-build", settings], good + zeros.encode() + b"\n", blocks + fac_block(some).encode() + b"\n", wrong)
        block = fac_block(some)
        spare = fac_block(some, reserved=0x55)
        other = fac_block(some[:2] + [some[2] ^ 1] + some[3:])
        flipped = lambda digits, bit: f"{int(digits, 16) ^ 1 << (71 - bit):018X}"
        wrong = [(what, text, "bad line") for what, text in [
            ("empty", ""), ("seventeen digits", block[1:]), ("nineteen digits", block + "0"), ("lower case", block.replace("E", "e")), ("a G", "G" + block[1:]),
            ("a space behind", block + " "), ("two spaces for digits", "  " + block[2:]), ("a carriage return", block[:17] + "\r"), ("1000 characters", "0" * 1000),
        ]]
        # bits 3 to 10 hold the four fields that must agree: occupancy, interleaving, MSC mode, SDC mode
        wrong += [(f"bit {i} wrong", flipped(block, i), too_large if 3 <= i < 11 else wrong_crc) for i in range(72)]
        wrong += [("against the settings with the right CRC", other, too_large), ("against the settings with a wrong CRC", flipped(other, 71), too_large)]
        lines(program, ["fac-read", settings], blocks + spare.encode() + b"\n", good + line.encode() + b"\n", wrong)


# words that are no description: two numbers for each of one to four streams, each below 65,536
NO_DESCRIPTIONS = ["", "285", "285,0,0", ",".join(["0"] * 10), "285,", ",285", "285,,0", "285 0", "285,+0", "285,-0", "285,0x0", "285,0\n", "285,65536",
                   "285,4294967296", "285,18446744073709551616", "285;0", "285,0" + " ", "285," + "0" * 60, "285," + "0" * 4096]


# settings of each MSC mode, bits of the VSPP and of what comes after it, descriptions that fit
MULTIPLEX = [
    ("000300000100011D0000", 0, 10174, [[285, 0], [285, 986], [100, 3, 185, 500], [0, 1, 5, 0, 280, 9, 0, 0]]),
    ("00030100010100640000", 1684, 8351, [[0, 210, 100, 943], [65535, 0, 100, 0], [0, 7, 60, 1, 40, 2], [1, 100, 0, 9, 99, 0, 1, 30]]),
    ("00030200010100640000", 3372, 6270, [[0, 421, 100, 683], [0, 1, 50, 50, 50, 50]]),
    ("00030301010000C80101", 0, 7381, [[200, 722], [0, 0, 200, 1], [50, 1, 50, 2, 50, 3, 50, 4]]),
]


class Multiplex:
    """Settings with a description, and the bytes and bits of a frame. 02, S-8: H, then A0 A1 .. B0 B1 .. at bit L_VSPP."""

    def __init__(self, settings, vspp, rest, numbers):
        self.settings, self.vspp, self.rest = settings, vspp, rest
        streams = [numbers[k:k + 2] for k in range(0, len(numbers), 2)]
        self.head = streams.pop(0)[1] if int(settings[4:6], 16) in (1, 2) else 0
        self.streams = streams
        self.size = self.head + sum(map(sum, streams))
        self.frame = (vspp + rest + 7) // 8
        self.word = ",".join(map(str, numbers))

    def bits(self, data):
        return "".join(f"{byte:08b}" for byte in data)

    def build(self, data):
        """A frame from the bytes of the logical frames."""
        at, first, second = self.head, "", ""
        for a, b in self.streams:
            first += self.bits(data[at:at + a])
            second += self.bits(data[at + a:at + a + b])
            at += a + b
        all_bits = self.bits(data[:self.head]).ljust(self.vspp, "0") + (first + second).ljust(self.rest, "0")
        return self.packed(all_bits)

    def packed(self, all_bits):
        return int(all_bits.ljust(8 * self.frame, "0"), 2).to_bytes(self.frame, "big")

    def flipped(self, frame, bit):
        out = bytearray(frame)
        out[bit // 8] ^= 128 >> bit % 8
        return bytes(out)


def multiplex(program):
    """Logical frames to multiplex frames and back in each MSC mode; descriptions and frames that are refused."""
    unfit = "refused: 19, parts of streams that do not fit the multiplex frame"
    for settings, vspp, rest, descriptions in MULTIPLEX:
        x = int(settings[12:16], 16)
        for numbers in descriptions:
            m = Multiplex(settings, vspp, rest, numbers)
            data = [Draw(k + 1).block(8 * m.size) for k in range(4)]
            frames = [m.build(one) for one in data]
            words = [settings, m.word]
            for chunk in (1009, 7):
                what = f"{settings} {m.word}, {chunk} bytes at a time"
                both(program, ["mux"] + words, b"".join(data), "mux " + what, b"".join(frames), "multiplex frames: 4\n", True, chunk=chunk)
                both(program, ["demux"] + words, b"".join(frames), "demux " + what, b"".join(data), "multiplex frames: 4\n", True, chunk=chunk)
            inside = "multiplex frame 2: the input ends inside it\nmultiplex frames: 2\n"
            both(program, ["mux"] + words, b"".join(data)[:3 * m.size - 1], "logical frames that end inside", b"".join(frames[:2]), inside, False)
            both(program, ["demux"] + words, b"".join(frames)[:2 * m.frame + 1], "a multiplex frame that ends inside", b"".join(data[:2]), inside, False)
            for job in ("mux", "demux"):
                both(program, [job] + words, b"", job + ": no input", b"", "multiplex frames: 0\n", True)
            used = 8 * (m.size - m.head)
            wrong = [(bit, "refused: 20, filling that is not zero") for bit in {8 * m.head, vspp - 1} if 8 * m.head <= bit < vspp]
            wrong += [(bit, "refused: 20, filling that is not zero") for bit in {vspp + used, vspp + rest - 1} if vspp + used <= bit < vspp + rest]
            wrong += [(bit, "refused: 11, a spare bit set") for bit in range(vspp + rest, 8 * m.frame)]
            for bit, said in wrong:
                both(program, ["demux"] + words, frames[0] + m.flipped(frames[1], bit) + frames[2], f"demux, bit {bit} set", data[0],
                     f"multiplex frame 1: {said}\nmultiplex frames: 1\n", False)
            with open("/dev/full", "wb") as full:
                both(program, ["mux"] + words, b"".join(data), "mux: output to a full device", b"",
                     "multiplex frame 0: not written: the output failed\nmultiplex frames: 0\n", False, stdout=full)
            folder = os.open("/", os.O_RDONLY)
            both(program, ["demux"] + words, b"", "demux: input from a directory", b"",
                 "multiplex frame 0: not read: the input failed\nmultiplex frames: 0\n", False, stdin=folder)
            os.close(folder)
        first = [0, vspp // 8] if vspp else []
        beyond = [first + [x + 1, 0], first + [x, rest // 8 - x + 1], first + [65535, 0, x + 1, 0]]
        beyond += [[0, vspp // 8 + 1, x, 0]] if vspp else []
        beyond += [first + [x - 1, 0]] if x else []
        for numbers in beyond:
            word = ",".join(map(str, numbers))
            for job in ("mux", "demux"):
                both(program, [job, settings, word], b"", f"{job} {word}", b"", f"settings: {unfit}\n", False)


def plans(program):
    """A plan's week and one of its super frames; plans that are refused, a line that is no rule, and a file that is none."""
    one, two = EXAMPLES[0][0], EXAMPLES[1][0]
    good = f"0 600 {one}\n600 10080 {two}\n"
    week = b"0 0 29998\n30000 1 503998\n"
    cuts = [157 * k for k in range(64)] + [10080]
    most = list(zip(range(64), cuts, cuts[1:], [one, two] * 32))
    with tempfile.TemporaryDirectory() as place:
        name = os.path.join(place, "plan")
        missing = os.path.join(place, "none")
        for what, text, words, out, said in [
            ("a week", good, [], week, ""),
            ("one rule", f"0 10080 {one}\n", [], b"0 0 -\n", ""),
            ("64 rules", "".join(f"{a} {b} {s}\n" for _, a, b, s in most), [], "".join(f"{50 * a} {k} {50 * b - 2}\n" for k, a, b, _ in most).encode(), ""),
            ("a first super frame", good, ["0"], b"0 2\n", ""),
            ("a super frame", good, ["29997"], b"0 0\n", ""),
            ("a closing", good, ["29998"], b"0 1\n", ""),
            ("after a reset", good, ["30000"], b"1 2\n", ""),
            ("the week's last", good, ["503999"], b"1 1\n", ""),
            ("out of range", good, ["504000"], b"", "plan: refused: 24, a plan or a super frame out of range\n"),
            ("above 32 bits", good, ["4294967296"], b"", "plan: refused: 24, a plan or a super frame out of range\n"),
            ("a minute above two bytes", f"0 65636 {one}\n", [], b"", "plan: refused: 24, a plan or a super frame out of range\n"),
            ("65 rules", f"0 10080 {one}\n" * 65, [], b"", "plan: refused: 24, a plan or a super frame out of range\n"),
            ("a gap", f"0 600 {one}\n601 10080 {two}\n", [], b"", "plan: refused: 25, a minute without a rule\n"),
            ("no rules", "", ["0"], b"", "plan: refused: 25, a minute without a rule\n"),
            ("an overlap", f"0 601 {one}\n600 10080 {two}\n", ["0"], b"", "plan: refused: 26, a minute with two rules\n"),
            ("a bad line", f"0 600 {one}\n600  10080 {two}\n", [], b"", "line 2: bad line\n"),
            ("a long line", "0" * 300 + good, [], b"", "line 1: bad line\n"),
            ("super frame with leading zeros", good, ["0" * 20 + "29998"], b"0 1\n", ""),
            ("rules in another order", f"600 10080 {two}\n0 600 {one}\n", [], b"0 1 29998\n30000 0 503998\n", ""),
            ("neighbours with equal settings", f"0 600 {one}\n600 10080 {one}\n", [], b"0 0 -\n30000 1 -\n", ""),
            ("settings that are refused, after others", f"0 600 {one}\n600 10080 {'04' + two[2:]}\n", ["0"], b"", "plan: refused: 1, robustness mode not 0 to 3\n"),
            ("settings in lower case", f"0 600 {one}\n600 10080 {two[:12] + '00c8' + two[16:]}\n", [], b"", "line 2: bad line\n"),
            ("no second minute", f"0  {one}\n", [], b"", "line 1: bad line\n"),
            ("a space behind", f"0 10080 {one} \n", [], b"", "line 1: bad line\n"),
            ("a line without its end", good[:-1], [], b"", "line 2: the input ends inside it\n"),
        ]:
            with open(name, "w") as file:
                file.write(text)
            both(program, ["plan", name] + words, b"", what, out, said, said == "")
        with open(name, "w") as file:
            file.write(good)
        with open("/dev/full", "wb") as full:
            for words in ([], ["0"]):
                both(program, ["plan", name] + words, b"", "a plan to a full device", b"", "line 1: not written: the output failed\n", False, stdout=full)
        both(program, ["plan", place], b"", "a directory", b"", "line 1: not read: the input failed\n", False)
        both(program, ["plan", missing], b"", "no file", b"", f"{missing}: No such file or directory\n", False)


# words that are no number of bytes: a decimal number below 2^32
NO_COUNTS = ["", "-1", "+1", "1.0", "1e3", "0x10", " 1", "1 ", "1,000", "A", "1\n", "4294967296", "42949672950", "18446744073709551617", "0" * 32, "1" * 4096]


# settings without part A, bits of L2, bytes of memory
FITS = [("00030000010000000000", 10628, 5 * 2959), ("00030301010000000101", 7381, 2959)]


def fits(program):
    """How long a number of bytes takes: each number computed anew, with the time on air; counts that are none, and settings that 27 refuses."""
    for settings, bits, memory in FITS:
        whole = bits // 8
        for count in (0, 1, whole - 1, whole, whole + 1, 3 * whole, 3 * whole + 1, 1000000, 2 ** 32 - 1):
            used = (count + whole - 1) // whole
            frames = (used + 2) // 3 + 2
            zeros = bits - 8 * (count - (used - 1) * whole) if count else 0
            minutes, tenths = divmod(12 * frames, 600)
            out = f"{frames} super frames with the closing\n{memory} bytes of memory\n{zeros} zero bits after the last byte\n"
            out += f"{minutes // 60} hours {minutes % 60} minutes {tenths // 10}.{tenths % 10} seconds on air\n"
            for word in (str(count), "0" * 8 + str(count)):
                both(program, ["fit", settings, word], b"", f"fit {settings} {word}", out.encode(), "", True)
        with open("/dev/full", "wb") as full:
            both(program, ["fit", settings, "1"], b"", "fit: output to a full device", b"", "line 1: not written: the output failed\n", False, stdout=full)
    for settings in (EXAMPLES[0][0], "00030100010100000000"):
        both(program, ["fit", settings, "1"], b"", "fit with part A or VSPP", b"", "settings: refused: 27, part A or VSPP in use\n", False)


JOBS = ("code", "read", "read-on", "grid", "ungrid", "fac-build", "fac-read", "nearest", "mux", "demux", "to-new", "to-old", "preview", "plan", "fit")


def arguments(program):
    settings = EXAMPLES[0][0]
    status, out, usage = run([program], b"")
    must(status == 0 and out == b"" and usage.startswith("usage: desk JOB ARGUMENTS\n"), f"no argument: {usage!r}")
    must(all(f"\n  {job} " in usage for job in JOBS), "the usage names the jobs")
    for what, words in [
        ("no argument", []),
        ("a job alone", ["code"]),
        ("settings alone", [settings]),
        ("an unknown job", ["cod", settings]),
        ("a job and more", ["codes", settings]),
        ("a job in capitals", ["CODE", settings]),
        ("an empty job", ["", settings]),
        ("a long job", ["c" * 4096, settings]),
        ("an argument too many", ["code", settings, "-", "/dev/null", settings]),
        ("such for reading on", ["read-on", settings, "-"]),
        ("a hold file's job with an argument too many", ["to-new", settings, settings]),
        ("a preview without its hold file", ["preview", settings]),
        ("a preview with an argument too many", ["preview", settings, "/dev/null", "/dev/null"]),
        ("settings before the job", [settings, "code"]),
        ("short settings", ["code", "0003"]),
        ("long settings", ["code", settings + "0"]),
        ("settings of forty digits", ["code", settings + settings]),
        ("settings in lower case", ["code", settings.lower()]),
        ("settings with a line feed", ["code", settings[:-1] + "\n"]),
        ("empty settings", ["read", ""]),
        ("settings for a job that has none", ["nearest", settings]),
        ("a job on lines without its settings", ["fac-build"]),
        ("the other", ["fac-read"]),
        ("such a job with an argument too many", ["fac-build", settings, settings]),
        ("such a job with short settings", ["fac-read", "0003"]),
        ("a part of such a job", ["fac", settings]),
        ("a grid without settings", ["grid"]),
        ("a grid with an argument too many", ["ungrid", settings, settings]),
        ("a part of its name", ["un", settings]),
        ("multiplex frames without settings", ["mux"]),
        ("multiplex frames without a description", ["mux", settings]),
        ("the other", ["demux", settings]),
        ("multiplex frames with an argument too many", ["mux", settings, "285,0", "285,0"]),
        ("a description for a job that has none", ["read", settings, "285,0"]),
        ("a fit without its bytes", ["fit", FITS[0][0]]),
        ("a fit and more", ["fit", FITS[0][0], "1", "2"]),
        *[(f"the number of bytes {text[:20]!r}", ["fit", FITS[0][0], text]) for text in NO_COUNTS],
        ("a plan without its file", ["plan"]),
        ("a super frame that is no number", ["plan", "FILE", "1x"]),
        ("an empty super frame", ["plan", "FILE", ""]),
        ("a super frame of 32 digits, perhaps a part of more", ["plan", "FILE", "0" * 32]),
        ("a plan and more", ["plan", "FILE", "1", "2"]),
        ("streams without a byte, which would never end", ["mux", "00030000010000000000", "0,0"]),
        *[(f"the description {text[:20]!r}", [job, settings, text]) for job in ("mux", "demux") for text in NO_DESCRIPTIONS],
    ]:
        both(program, words, b"", what, b"", usage, False)
    for number, words, bad in [
        (1, "robustness mode not 0 to 3", "040300000100011D0000"),
        (2, "spectrum occupancy not allowed for the robustness mode", "02000000010000000000"),
        (3, "MSC mode not 0 to 3", "00030400010000000000"),
        (4, "protection level A or B not allowed for the MSC mode", "00030302010000000000"),
        (5, "VSPP level not allowed for the MSC mode", "00030000010100000000"),
        (6, "SDC mode or interleaving not 0 or 1", "00030000010000000200"),
        (7, "too many bytes in part A", "000300000100FFFF0000"),
    ]:
        for job in ("code", "read", "read-on", "grid", "ungrid", "fac-build", "fac-read", "mux", "demux", "fit", "to-new", "to-old", "preview"):
            more = ["285,0"] if "mux" in job else ["1"] if job == "fit" else ["FILE"] if job == "preview" else []
            both(program, [job, bad] + more, b"", "settings refused", b"", f"settings: refused: {number}, {words}\n", False)


def unkept(settings):
    """Where the command cannot keep what is said, it does not end with 0 after a run that failed; where nothing is said, there is nothing to keep."""

    def limited():
        signal.signal(signal.SIGXFSZ, signal.SIG_IGN)
        resource.setrlimit(resource.RLIMIT_FSIZE, (0, 0))

    status, _, said = run([COMMAND, "code", settings], b"\0", preexec_fn=limited)
    must(status == 2 and said.startswith(INSIDE.splitlines()[0]), f"what is said cannot be kept: {status}, {said!r}")
    status, _, said = run([COMMAND, "fit", FITS[0][0], "1"], b"", preexec_fn=limited)
    must(status == 0 and said == "", f"nothing is said, and nothing kept: {status}, {said!r}")
    print("  what is said cannot be kept: status 2")


def main():
    must(len(sys.argv) == 2, "usage: desk.py DIRECTORY")
    program = os.path.join(os.path.abspath(sys.argv[1]), "desk")
    for one in EXAMPLES:
        example(program, *one)
        reading_on(program, *one)
        hold_files(program, *one)
    largest(program)
    grids(program)
    nearest(program)
    fac_fields(program)
    multiplex(program)
    plans(program)
    fits(program)
    unkept(EXAMPLES[0][0])
    arguments(program)
    print("all as it must be")


main()
