#!/usr/bin/env python3
"""Runs the program of this folder and joins what is known of each row into one table, comma separated.

Times are the program's own. Instructions are counted where an emulator for x86-64 or valgrind is there: the program makes each call
once between two marks. The emulator steps by single instructions and names each in its log; a repeated string instruction counts once
for each step, and what the system does in a system call is not seen. With --functions FILE, where those instructions were spent.
"""
import argparse
import collections
import csv
import os
import pathlib
import shutil
import subprocess
import sys
import tempfile
import time

MARK = "bench_mark"


def emulated(command, emulator):
    """Instructions between each pair of marks, by function: the emulator's log of executed blocks of one instruction each."""
    reading, writing = os.pipe()
    words = [emulator, "-singlestep", "-d", "exec,nochain", "-D", f"/dev/fd/{writing}", *command]
    with subprocess.Popen(words, pass_fds=[writing], stdout=subprocess.DEVNULL) as process:
        os.close(writing)
        spans, current, inside = [], None, False
        with open(reading, "rb", buffering=1 << 20) as log:
            for line in log:
                if not line.startswith(b"Trace"):
                    continue
                name = line[line.rindex(b"]") + 2 : -1]
                if name == MARK.encode():
                    if not inside:
                        if current is None:
                            current = collections.Counter()
                        else:
                            spans.append(current)
                            current = None
                    inside = True
                    continue
                inside = False
                if current is not None:
                    current[name.decode()] += 1
    if process.returncode:
        sys.exit(f"the counted run ended with {process.returncode}")
    return spans


def simulated(command):
    """The same from valgrind, without the functions: it writes a file at each mark, and every other one is a call's."""
    with tempfile.TemporaryDirectory() as folder:
        out = pathlib.Path(folder, "out")
        words = ["valgrind", "--quiet", "--tool=callgrind", f"--dump-before={MARK}", f"--callgrind-out-file={out}"]
        subprocess.run([*words, *command], stdout=subprocess.DEVNULL, check=True)
        totals = []
        number = 1
        while (part := pathlib.Path(f"{out}.{number}")).exists():
            totals += [int(line.split()[1]) for line in part.read_text().splitlines() if line.startswith("totals:")]
            number += 1
    return [collections.Counter({"": total}) for total in totals[1::2]]


def fastest(command):
    """Nanoseconds of a program from start to end, the fastest of ten runs."""
    took = []
    for _ in range(10):
        began = time.perf_counter_ns()
        subprocess.run(command, stdout=subprocess.DEVNULL, check=True)
        took.append(time.perf_counter_ns() - began)
    return min(took)


def b2sum_nanoseconds(command, size, directory):
    """Nanoseconds for so many bytes, without what starting the program takes. It hashes files. From 1 MiB on: what a file 33 times as long
    takes beyond one, for each of the 32, with reading it; of fewer: what each of 2,000 further files takes, with opening and reading it and
    printing its line."""
    with tempfile.TemporaryDirectory(dir=directory) as folder:
        once, more = pathlib.Path(folder, "once"), pathlib.Path(folder, "more")
        once.write_bytes(bytes([5]) * size)
        if size < 1 << 20:
            further = 2000
            more.write_bytes(bytes([5]) * size)
            longer = [str(once), *[str(more)] * further]
        else:
            further = 32
            more.write_bytes(bytes([5]) * size * (1 + further))
            longer = [str(more)]
        words = [*command, "-l", "256"]
        return (fastest([*words, *longer]) - fastest([*words, str(once)])) / further


def main():
    parser = argparse.ArgumentParser(description=__doc__)
    parser.add_argument("--directory", required=True, help="for files, on a memory file system")
    parser.add_argument("--emulator", default="", help="runs the program, where the processor does not")
    parser.add_argument("--b2sum", default="", help="a b2sum for the same processor as the program")
    parser.add_argument("--functions", help="where to write what each function took")
    parser.add_argument("program")
    words = parser.parse_args()
    emulator = [words.emulator] if words.emulator else []

    timed = subprocess.run([*emulator, words.program, words.directory], stdout=subprocess.PIPE, text=True, check=True)
    header, *rows = csv.reader(timed.stdout.splitlines())

    counted = [words.program, words.directory, "--count"]
    stepper = words.emulator or shutil.which("qemu-x86_64")
    if stepper:
        spans = emulated(counted, stepper)
    elif shutil.which("valgrind"):
        spans = simulated(counted)
    else:
        spans = []
    # the first row is that of no call
    marks = sum(spans[0].values()) if spans else 0
    left = iter(spans)
    functions = []
    for row in rows:
        named = dict(zip(header, row))
        for side in ("ours", "theirs"):
            span = next(left, None) if named[f"{side}_ns"] else None
            row.append(max(sum(span.values()) - marks, 0) or "" if span else "")
            for function, count in span.most_common() if span else []:
                functions.append([*row[:6], side, function, count])
    if next(left, None) is not None:
        sys.exit("more calls were counted than timed")

    for ours in [row for row in rows if row[0] == "hash"] if words.b2sum else []:
        size = int(ours[4])
        theirs = b2sum_nanoseconds([*emulator, words.b2sum], size, words.directory)
        # of a short message it is a whole file's work, so there is no ratio of it that plot.py could draw
        group, ratio = ("hash", f"{float(ours[6]) / theirs:.2f}") if size >= 1 << 20 else ("file", "")
        rows.insert(rows.index(ours) + 1, [group, *ours[1:5], "b2sum", ours[6], f"{theirs:.1f}", ratio, "", ""])

    out = csv.writer(sys.stdout, lineterminator="\n")
    out.writerow([*header, "ours_instructions", "theirs_instructions"])
    out.writerows(rows)
    if words.functions:
        with open(words.functions, "w", newline="") as file:
            out = csv.writer(file, lineterminator="\n")
            out.writerow([*header[:6], "side", "function", "instructions"])
            out.writerows(functions)


main()
