"""Compares the results in scripts/ with those of the Rust crate clru, line by line."""

import re
import subprocess
from collections import Counter

# What the crate has, and what begins a block of it.
COMPARED = re.compile(r"^(cache|replay) ", re.MULTILINE)
ANSWER = re.compile(r"[^#]*-> (.*)")
# A comment that names a row of docs/DIFFERENCES.md, above the block or the line where the two differ for that reason.
REASON = re.compile(r"# DIFFERENCES: (.*)")


def compare_scripts(top, driver):
    """Prints where they differ without a reason, and a count. Returns the status of the program."""
    rows = rows_of(top / "docs" / "DIFFERENCES.md")
    counts, wrong = Counter(), []
    for script in sorted((top / "scripts").glob("*.calls")):
        lines = script.read_text().splitlines()
        if COMPARED.search("\n".join(lines)):
            faults = compare(lines, *answers_of(driver, lines), rows, counts)
            wrong += [f"scripts/{script.name}:{at}: {what}" for at, what in faults]
    for it in wrong:
        print(it)
    alike, meant, left = (counts[it] for it in ("alike", "meant", "left"))
    print(f"scripts: {alike} answers alike, {meant} differ on purpose, {left} not compared")
    return 1 if wrong or not alike else 0


def rows_of(page):
    """The rows of the tables of a page, as plain words."""
    return [it.replace("`", "") for it in page.read_text().splitlines() if it.startswith("|")]


def answers_of(driver, lines):
    """The lines with the crate's answers, and the numbers of those that the driver left as they are."""
    ran = subprocess.run([driver], input="\n".join(lines), capture_output=True, text=True, check=True)
    return ran.stdout.splitlines(), set(map(int, ran.stderr.split()))


def compare(lines, answers, left, rows, counts):
    """Counts the answers, and yields what is wrong, by the number of the line."""
    reasons, unused = reasons_of(lines)
    for at, (line, answer) in enumerate(zip(lines, answers), 1):
        if line != answer and at in reasons:
            counts["meant"] += 1
            unused.discard(reasons[at])
        elif line != answer:
            yield at, f"the Rust crate answers {ANSWER.match(answer)[1]}"
        elif ANSWER.match(line):
            counts["left" if at in left else "alike"] += 1
    for at in sorted(unused):
        yield at, "no answer differs for this reason"
    for at, line in enumerate(lines, 1):
        named = REASON.match(line)
        if named and not any(named[1] in row for row in rows):
            yield at, "no row of docs/DIFFERENCES.md says so"


def reasons_of(lines):
    """By the number of a line, that of the comment with its reason; and the numbers of all such comments."""
    reasons, comments = {}, set()
    above = block = None
    for at, line in enumerate(lines, 1):
        if REASON.match(line):
            above = at
            comments.add(at)
        elif not line.startswith("#"):
            block = above if COMPARED.match(line) else block
            reasons[at] = above or block
            above = None
    return {at: reason for at, reason in reasons.items() if reason}, comments
