#!/usr/bin/env python3
"""Cuts and changes the TZif files of a directory, and compares what tzq and another program with its command line answer over them.

usage: altered_files.py --tzq PATH --other PATH [--directory FOLDER] [--cuts N] [--changes N] [--seed N] [--files N] [--show N]

Of each file, once for files of equal content, the whole is tried, then its front at --cuts lengths, then the file with one byte changed,
--changes times. Both programs get it by -f, with the same query lines. A difference is one of these:

  accepted   tzq answers, and the other one refuses
  refused    tzq refuses, and the other one answers
  named      both refuse, for different reasons
  T, F       both answer, and a line of this kind differs

The last lines count them. The exit status is 0 where nothing differs, and else 1.
"""
import argparse
import collections
import pathlib
import random
import subprocess
import sys
import tempfile


def tzif_files(directory):
    """The files of the directory that begin as TZif files do, one for each content."""
    contents = {}
    for path in sorted(pathlib.Path(directory).rglob("*")):
        if path.is_file():
            content = path.read_bytes()
            if content[:4] == b"TZif":
                contents.setdefault(content, path)
    return [(path, content) for content, path in contents.items()]


def query_lines(rng):
    """Instants and local times, most of them near transitions of the last two centuries."""
    lines = [
        f"T {instant} 0"
        for instant in (
            -(2**62),
            -(2**40),
            -(2**31) - 1,
            -(2**31),
            -1,
            0,
            78796800,
            2**31 - 1,
            2**31,
            2**40,
            2**62,
        )
    ]
    lines += [
        f"T {rng.randint(-4 * 10**9, 6 * 10**9)} {rng.randint(0, 999999999)}" for _ in range(30)
    ]
    for _ in range(30):
        year, month, day = (
            rng.randint(1880, 2060),
            rng.choice([3, 4, 6, 9, 10, 11, 12]),
            rng.randint(1, 30),
        )
        lines.append(
            f"F {year} {month} {day} {rng.choice([0, 1, 2, 2, 3, 23])} {rng.choice([0, 30, 59])} {rng.choice([0, 59, 60])} 0"
        )
    return lines


def grouped(lines, answers):
    """The answer lines of each query line."""
    groups, at = [], 0
    for _ in lines:
        first = answers[at] if at < len(answers) else "nothing"
        more = int(first[2:]) if first.startswith("F ") else 0
        groups.append(" / ".join(answers[at : at + 1 + more]))
        at += 1 + more
    return groups


def answer(program, path, lines):
    """The status, the answers of the lines, and the line on standard error."""
    ran = subprocess.run(
        [program, "-f", path],
        input="".join(f"{it}\n" for it in lines).encode(),
        capture_output=True,
        check=False,
    )
    return (
        ran.returncode,
        grouped(lines, ran.stdout.decode("latin-1").split("\n")),
        ran.stderr.decode("latin-1").strip(),
    )


def differences(lines, ours, theirs):
    """The kind of each difference, and what it is."""
    if ours[0] != theirs[0]:
        kind = "accepted" if ours[0] == 0 else "refused" if theirs[0] == 0 else "named"
        return [(kind, f"{ours[2] or 'answers'} | {theirs[2] or 'answers'}")]
    if ours[0] != 0:
        return [] if ours[2] == theirs[2] else [("named", f"{ours[2]} | {theirs[2]}")]
    return [
        (line[0], f"{line}: {mine} | {other}")
        for line, mine, other in zip(lines, ours[1], theirs[1])
        if mine != other
    ]


def alterations(rng, content, cuts, changes):
    """The file, its fronts, and the file with one byte changed, each with what was done."""
    yield "whole", content
    for _ in range(cuts):
        length = rng.randrange(len(content))
        yield f"cut to {length}", content[:length]
    for _ in range(changes):
        place, byte = rng.randrange(len(content)), rng.randrange(256)
        yield f"byte {place} is {byte}", content[:place] + bytes([byte]) + content[place + 1 :]


def main():
    ask = argparse.ArgumentParser(description="Compares two programs over altered TZif files.")
    ask.add_argument("--tzq", required=True)
    ask.add_argument("--other", required=True)
    ask.add_argument("--directory", default="/usr/share/zoneinfo")
    ask.add_argument("--cuts", type=int, default=40)
    ask.add_argument("--changes", type=int, default=40)
    ask.add_argument(
        "--files", type=int, default=0, help="how many files, chosen at random; 0 for all"
    )
    ask.add_argument("--seed", type=int, default=1)
    ask.add_argument(
        "--show", type=int, default=5, help="how many differences of each kind are shown"
    )
    given = ask.parse_args()
    rng = random.Random(given.seed)
    files = tzif_files(given.directory)
    if given.files:
        files = rng.sample(files, min(given.files, len(files)))
    tried, answered, differing, seen = 0, 0, collections.Counter(), collections.Counter()
    with tempfile.TemporaryDirectory() as room:
        file = pathlib.Path(room) / "altered"
        for path, content in files:
            for change, altered in alterations(rng, content, given.cuts, given.changes):
                file.write_bytes(altered)
                lines = query_lines(rng)
                ours, theirs = answer(given.tzq, file, lines), answer(given.other, file, lines)
                tried += 1
                answered += ours[0] == 0
                found = differences(lines, ours, theirs)
                differing["all"] += bool(found)
                for kind, text in found:
                    seen[kind] += 1
                    if seen[kind] <= given.show:
                        print(f"{kind}: {path}, {change}: {text}")
    print(f"{len(files)} files, {tried} tried, {answered} answered, {differing['all']} differ")
    for kind, count in sorted(seen.items()):
        print(f"{kind}: {count}")
    return 1 if differing["all"] else 0


if __name__ == "__main__":
    sys.exit(main())
