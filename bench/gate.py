#!/usr/bin/env python3
"""Runs a command, the gate if none is given, and prints what it took: minutes, processor minutes, and a table of
processor seconds by crate. Usage: gate.py [COMMAND ..] > TABLE

Once a second it looks which processes the command has and what each has used, its own time and the system's; a process
counts for the crate that its words name (`--crate-name`), with what it had used when it was last seen.
"""
import os
import re
import subprocess
import sys
import time

TICKS = os.sysconf("SC_CLK_TCK")


def processes(session):
    """The processes of a session: number, words, and the seconds that each has used."""
    for name in os.listdir("/proc"):
        if not name.isdigit():
            continue
        try:
            with open(f"/proc/{name}/stat") as file:
                fields = file.read().rsplit(")", 1)[1].split()
            with open(f"/proc/{name}/cmdline") as file:
                words = file.read().replace("\0", " ")
        except (OSError, IndexError):
            continue
        if int(fields[3]) == session:
            yield (name, fields[19]), words, (int(fields[11]) + int(fields[12])) / TICKS


def main():
    top = os.path.join(os.path.dirname(os.path.abspath(__file__)), "..")
    command = sys.argv[1:] or [os.path.join(top, ".ci", "run")]
    begun = time.time()
    run = subprocess.Popen(command, stdout=sys.stderr, start_new_session=True)
    used = {}
    while run.poll() is None:
        for key, words, seconds in processes(run.pid):
            # a process that has ended has no words any more
            found = re.search(r"--crate-name (\w+)", words)
            before = used[key][0] if key in used else "else"
            used[key] = (found.group(1) if found else before, seconds)
        time.sleep(1)
    crates = {}
    for crate, seconds in used.values():
        crates[crate] = crates.get(crate, 0) + seconds
    minutes = (time.time() - begun) / 60
    print(f"{minutes:.0f} minutes, {sum(crates.values()) / 60:.0f} processor minutes\n")
    print("| Crate | Processor seconds |\n|---|---|")
    for crate, seconds in sorted(crates.items(), key=lambda item: -item[1]):
        print(f"| `{crate}` | {seconds:.0f} |")
    sys.exit(run.returncode)


if __name__ == "__main__":
    main()
