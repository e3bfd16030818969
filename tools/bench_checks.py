#!/usr/bin/env python3
"""Times the proved checker beside the second program on sources at the limits, in one run.

    bench_checks.py [TIMES]

Needs `rt run </dev/null` in crates/vectors, or `rt ci`, to have been run, which leaves the program in crates/vectors/out. Each program reads the same stream of
one source TIMES times over (default 400) and writes a line for each; the best of five runs counts, divided by TIMES. Reading the stream
and writing the lines are part of it for both.
"""
import os
import struct
import subprocess
import sys
import time

ROOT = os.path.dirname(os.path.dirname(os.path.abspath(__file__)))
CHECKER = [os.path.join(ROOT, "crates/vectors/out/vectors")]
REFERENCE = [os.path.join(ROOT, "reference/target/release/reference"), "answer"]


def limit_source():
    """4,096 tokens and 65,535 bytes."""
    names = ["grey_level", "shift", "moved", "edge", "total", "left", "right", "middle"]
    head = "1 dimensions of 0..1\n"
    count, rest = divmod(4096 - 6, 7)
    lines = ["%s := %d + %s * 3" % (names[i % 8], i, names[i % 8]) for i in range(count)]
    lines += ["x := 1"] * (rest // 3)
    if rest % 3 == 2:
        lines[-1] += " + 1"
    elif rest % 3 == 1:
        lines[-1] = "x := - 1" if rest >= 4 else lines[-1]
    room = 65535 - len(head) - sum(len(line) + 3 for line in lines)
    each = room // len(lines)
    text = head + "".join(line + " #" + "." * each + "\n" for line in lines)
    return (text + " " * (65535 - len(text))).encode()


def best(command, data):
    times = []
    for _ in range(5):
        begun = time.perf_counter()
        out = subprocess.run(command, input=data, stdout=subprocess.PIPE, check=True).stdout
        times.append(time.perf_counter() - begun)
    return min(times), out


def main():
    times = int(sys.argv[1]) if len(sys.argv) > 1 else 400
    text = limit_source()
    data = (struct.pack("<II", 3, len(text)) + text) * times
    checker, answers = best(CHECKER, data)
    reference, expected = best(REFERENCE, data)
    assert answers == expected, "the replies differ"
    print("%d bytes, reply %r" % (len(text), answers.split(b"\n")[0].decode()))
    print("checker %.3f ms, second program %.3f ms, ratio %.2f" % (checker / times * 1e3, reference / times * 1e3, checker / reference))


main()
