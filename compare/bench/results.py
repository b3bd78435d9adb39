"""The figures that were measured, as a file of rows. Each row says when it was measured, and of which commit."""

import datetime
import os
import platform
import subprocess
from collections import namedtuple

# measure: `instructions` or `time` (nanoseconds) for one call, step or key, `memory` (bytes for a key), or `faults` (the page faults of
# a whole round). Of times, `least` and `most` are the quartiles of the ratios of neighbouring runs.
Row = namedtuple("Row", "measure map operation slots port rust ratio least most commit date")
HEAD = "\t".join(Row._fields)


def key_of(row):
    return row.measure, row.map, row.operation, row.slots


def read(path):
    """The rows of a file by their keys; none where there is no file."""
    if not os.path.exists(path):
        return {}
    with open(path, encoding="utf-8") as file:
        lines = [it for it in file.read().split("\n") if it and not it.startswith("#") and it != HEAD]
    rows = {}
    for line in lines:
        *place, slots, port, rust, ratio, least, most, commit, date = line.split("\t")
        figures = [float(it) for it in (port, rust, ratio, least, most)]
        row = Row(*place, int(slots), *figures, commit, date)
        rows[key_of(row)] = row
    return rows


def line_of(row):
    figures = [f"{row.port:.1f}", f"{row.rust:.1f}", f"{row.ratio:.2f}", f"{row.least:.2f}", f"{row.most:.2f}"]
    return "\t".join([row.measure, row.map, row.operation, str(row.slots), *figures, row.commit, row.date])


def write(path, rows, order):
    """Writes the rows, sorted by the function `order`, under what is known of the machine."""
    head = [f"# {it}" for it in machine()]
    lines = [line_of(it) for it in sorted(rows.values(), key=order)]
    with open(path, "w", encoding="utf-8") as file:
        file.write("\n".join([*head, HEAD, *lines]) + "\n")


def first_line(command):
    done = subprocess.run(command, stdout=subprocess.PIPE, stderr=subprocess.DEVNULL, text=True, check=False)
    return done.stdout.strip().split("\n")[0]


def processor():
    with open("/proc/cpuinfo", encoding="utf-8") as file:
        names = [it.split(":")[1].strip() for it in file if it.startswith("model name")]
    return f"{names[0] if names else platform.machine()}, {len(names)} processors"


def machine():
    return [
        f"Written by compare/bench/bench.py, last on {today()}. Here and in the Rust crate slotmap 1.1.1, for one call, step or key.",
        f"Machine of the last run: {processor()}; Linux {platform.release()}.",
        f"Tools of the last run: {first_line(['rt', 'version'])}; {first_line(['rustc', '--version'])}; {first_line(['valgrind', '--version'])}.",
    ]


def today():
    return datetime.datetime.now(datetime.timezone.utc).strftime("%Y-%m-%d")


def commit_of(folder):
    """The commit that is checked out, with a + where files of the crates differ from it."""
    name = first_line(["git", "-C", folder, "rev-parse", "--short=8", "HEAD"])
    changed = first_line(["git", "-C", folder, "status", "--porcelain", "--", "crates"])
    return name + ("+" if changed else "")
