"""What processes have spent, by /proc."""

import os

TICKS = os.sysconf("SC_CLK_TCK")


def table():
    """Of each process its parent, and the processor seconds of it and of its children that have ended."""
    found = {}
    for pid in filter(str.isdigit, os.listdir("/proc")):
        try:
            with open(f"/proc/{pid}/stat") as file:
                fields = file.read().rpartition(")")[2].split()
        except OSError:
            continue
        found[int(pid)] = int(fields[1]), sum(map(int, fields[11:15])) / TICKS
    return found


def below(found, root):
    """A process and all that it began, and that those began."""
    ids = {root}
    while more := {pid for pid, (parent, _) in found.items() if parent in ids} - ids:
        ids |= more
    return ids
