#!/usr/bin/env python3
"""lengths.py DIRECTORY: tries the lengths program and its command bin/lengths on a table of lines, with the program built in DIRECTORY."""
import os
import subprocess
import sys

COMMAND = os.path.join(os.path.dirname(os.path.abspath(__file__)), "..", "bin", "lengths")
LINE = b"000300000100011D0000"
ANSWER = b"02F8 0897 08E8 1ED6 0000\n"
BAD = b"bad line\n"
# what comes in, and what must go out; the five lengths are annex C's
TABLE = [
    ("annex C's line", LINE + b"\n", ANSWER),
    ("nothing", b"", BAD),
    ("a line feed alone", b"\n", BAD),
    ("19 digits", LINE[:-1] + b"\n", BAD),
    ("21 digits", LINE + b"0\n", BAD),
    ("40 digits", LINE + LINE + b"\n", BAD),
    ("lower case", LINE.lower() + b"\n", BAD),
    ("a carriage return", LINE + b"\r\n", BAD),
    ("no line feed", LINE, BAD),
    ("a zero byte for the line feed", LINE + b"\0", BAD),
    ("a space before", b" " + LINE + b"\n", BAD),
    ("a letter beyond F", b"G" + LINE[1:] + b"\n", BAD),
    ("two lines", LINE + b"\n" + b"0" * 20 + b"\n", ANSWER),
    ("a line and a part of one", LINE + b"\n1", ANSWER),
    ("an empty line and a line", b"\n" + LINE + b"\n", BAD),
    ("refusal 1", b"040300000100011D0000\n", b"1\n"),
    ("refusal 2", b"02000000010000000000\n", b"2\n"),
    ("refusal 3", b"00030400010000000000\n", b"3\n"),
    ("refusal 4", b"00030302010000000000\n", b"4\n"),
    ("refusal 5", b"00030000010100000000\n", b"5\n"),
    ("refusal 6", b"00030000010000000200\n", b"6\n"),
    ("refusal 7", b"000300000100FFFF0000\n", b"7\n"),
]


def must(condition, what):
    if not condition:
        sys.exit("lengths.py: " + what)


def main():
    must(len(sys.argv) == 2, "usage: lengths.py DIRECTORY")
    program = os.path.join(sys.argv[1], "lengths")
    for what, line, answer in TABLE:
        for start, wanted in ((program, 0), (COMMAND, 0 if answer == ANSWER else 1)):
            done = subprocess.run([start], input=line, capture_output=True, check=False)
            must(done.stdout == answer and done.stderr == b"", f"{what}: {done.stdout!r}, {done.stderr!r}, not {answer!r}")
            must(done.returncode == wanted, f"{what}: {start} ended with {done.returncode}")
    with open("/dev/full", "wb") as full:
        done = subprocess.run([program], input=LINE + b"\n", stdout=full, stderr=subprocess.PIPE, check=False)
        must(done.stderr == b"not written: the output failed\n", f"a full device is not said: {done.stderr!r}")
        done = subprocess.run([COMMAND], input=LINE + b"\n", stdout=full, stderr=subprocess.PIPE, check=False)
        must(done.returncode != 0, "a full device: bin/lengths ends with 0")
    for closed in ('exec "$0" >&-', 'exec "$0" <&-', 'exec "$0" < /'):
        done = subprocess.run(["sh", "-c", closed, COMMAND], input=LINE + b"\n", capture_output=True, check=False)
        must(done.returncode != 0, f"{closed}: bin/lengths ends with 0")
    print(f"lengths: {len(TABLE)} lines, and failing input and output: as they must be")


main()
