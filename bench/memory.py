#!/usr/bin/env python3
# SPDX-License-Identifier: MIT OR Apache-2.0
"""Prints the memory that a program uses after its replies to a script:  memory.py SCRIPT PROGRAM [ARGUMENT..]

It prints the megabytes that are in memory then, and the most that were."""
import subprocess
import sys
import threading


def main():
    if len(sys.argv) < 3:
        sys.exit("memory.py SCRIPT PROGRAM [ARGUMENT..]")
    with open(sys.argv[1], "rb") as script:
        lines = script.read()
    with subprocess.Popen(sys.argv[2:], stdin=subprocess.PIPE, stdout=subprocess.PIPE) as program:
        # its input stays open, so that it is still there when the last reply has come
        writer = threading.Thread(target=lambda: (program.stdin.write(lines), program.stdin.flush()))
        writer.start()
        for _ in range(lines.count(b"\n")):
            program.stdout.readline()
        writer.join()
        with open(f"/proc/{program.pid}/status", encoding="ascii") as status:
            kilobytes = dict(line.split()[:2] for line in status if line.startswith("Vm"))
        program.stdin.close()
    print(f"{int(kilobytes['VmRSS:']) / 1000:.1f} {int(kilobytes['VmHWM:']) / 1000:.1f}")


if __name__ == "__main__":
    main()
