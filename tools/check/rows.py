"""Compares the rows of docs/UPSTREAM-TESTS.md with the scripts and other files that have their calls and results.

A line of the page that begins with a link names a file. Each line below it, `- WORDS HEX`, is a row: the file has a part with these words,
mostly in its comment, and this checksum. A part begins at a comment behind an empty line, and ends before the next one; its checksum is
that of all its lines but comments. So a call or a result that is changed, added or gone is a fault until the page is changed too.
"""
import hashlib
import re

import source

PAGE = source.TOP / "docs" / "UPSTREAM-TESTS.md"
COMMENT = re.compile(r"\s*(#(?!\[)|///?|--)")


def parts(path):
    """The parts of a file, each as its words and its checksum."""
    for text in re.split(r"\n\s*\n(?=\s*(?:#(?!\[)|//|--))", path.read_text()):
        lines = [" ".join(line.split()) for line in text.splitlines() if line.strip()]
        code = "\n".join(line for line in lines if not COMMENT.match(line))
        words = " ".join(COMMENT.sub("", line).strip() for line in lines)
        yield words.replace("`", ""), hashlib.sha256(code.encode()).hexdigest()[:6]


def rows():
    """The rows of the page, each as its file, its words and its checksum."""
    path = PAGE
    for line in PAGE.read_text().splitlines():
        if match := re.match(r"\[[^]]+\]\(([^)]+)\)", line):
            path = (PAGE.parent / match[1]).resolve()
        elif match := re.fullmatch(r"- (.*) ([0-9a-f]{6})", line):
            yield path, match[1].replace("`", ""), match[2]


def faults():
    """The rows that the files do not have, and the tests of the Rust crate that a script names and the page does not."""
    said = list(rows())
    for path, words, checksum in said:
        quoted = re.compile(rf"(?<!\w){re.escape(words)}(?!\w)")
        found = [other for text, other in parts(path) if quoted.search(text)] if path.is_file() else []
        if checksum not in found:
            yield f"{PAGE.name}: {path.relative_to(source.TOP)} has not this row: {words} {checksum}, but {', '.join(found) or 'none'}"
    for path in sorted(source.SCRIPTS.rglob("*.calls")):
        comments = " ".join(line for line in path.read_text().splitlines() if line.startswith("#"))
        for name in sorted(set(re.findall(r"\btest_\w+", comments))):
            if [other for other, words, _ in said if name in re.findall(r"\w+", words)] != [path]:
                yield f"{PAGE.name}: {name} of {path.relative_to(source.TOP)} is not one row"
    if not said:
        yield f"{PAGE.name} has no rows"
