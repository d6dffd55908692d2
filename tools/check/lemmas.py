"""The lemmas that callers import, with the types that their sources give them: crates/clru/LEMMAS.txt, by whose names PROVING goes."""
import re

import source

PAGE, LIST = source.CRATES / "clru" / "PROVING.md", source.CRATES / "clru" / "LEMMAS.txt"
# What a caller imports lemmas from, in `Rattle.clru.proofs`.
MODULES = ("CallerLemmas", "Collecting", "CallerWalks")
HEAD = """What a proof of a caller imports, by module. PROVING.md says which to cite. What stands in {} is not written; a lemma that leaves `_`
for a value takes it from the goal. Written by tools/check/proved --write.
"""
WIDTH = 140
ITEM = re.compile(r"(?:abbrev )?pub (?!use )(record )?([^\s{}():]+) (.*)")
# A parameter that nobody writes.
OF_TYPES = re.compile(r"\{[^{}:]+ : Type 0\} ?(?:→ )?")


def depth(line):
    return len(line) - len(line.lstrip())


def explicit(takes):
    """The names of parameters that are written, in order."""
    return [name for part in pieces(takes) if part.startswith("(") for name in part[1:].split(" : ")[0].split()]


def items(path):
    """The public names of a file of proofs, each with its type behind the parameters of the modules around it. A record stands for its
    fields."""
    lines, around, record, inner = path.read_text().splitlines(), [], None, {}
    for at, line in enumerate(lines):
        if not line.strip() or line.lstrip().startswith("--") or record is not None and record < depth(line):
            continue
        record, around = None, [one for one in around if one[0] < depth(line)]
        # What goes on in further lines stands deeper.
        end = next((to for to in range(at + 1, len(lines)) if depth(lines[to]) <= depth(line)), len(lines))
        text = " ".join(part.strip() for part in lines[at:end])
        if text.startswith("module _ "):
            around.append((depth(line), text.removeprefix("module _ ").split(" where")[0]))
        elif match := ITEM.fullmatch(text):
            takes = " ".join(takes for _, takes in around)
            groups, _, kind = match[3].split(" where")[0].rpartition(" : ") if match[1] else ("", "", match[3].removeprefix(": "))
            record = depth(line) if match[1] else None
            # Outside of its module a name takes what the module does.
            for name, modules in inner.items():
                given = "".join(f" {name}" for one, other in zip(modules, around) if one is other for name in explicit(one[1]))
                kind = re.sub(rf"(?<![^\s(]){re.escape(name)}(?![^\s)])", name + given, kind)
            yield match[2], f"{takes} {groups}".strip() + " → " * bool(takes or groups) + kind
            inner[match[2]] = around


def module(name):
    """The file of a module of proofs, as `Rattle.clru.proofs.Collecting`."""
    crate, folder, *path = name.removeprefix("Rattle.").split(".")
    return source.CRATES.joinpath(crate, folder, *path).with_suffix(".antt")


def statements(path):
    """The type of each name that a caller imports from a module, by the name."""
    found = {}
    for line in path.read_text().splitlines():
        if match := re.fullmatch(r"pub use (\S+)\.\{(.*)\}", line):
            there = dict(items(module(match[1])))
            found |= {name: there[name] for name in match[2].split(", ")}
    return found | dict(items(path))


def pieces(text):
    """The parts of a type between which a line may end: before an arrow, and between two parameters."""
    inside, words, found, was = 0, [""], [], False
    for letter in text:
        inside += (letter in "({") - (letter in ")}")
        if letter == " " and not inside:
            words.append("")
        else:
            words[-1] += letter
    for word in filter(None, words):
        binds = word[0] in "({" and " : " in word
        if word == "→" or binds and was or not found:
            found.append(word)
        else:
            found[-1] += f" {word}"
        was = binds
    return found


def shown(name, text):
    """A statement in lines of the list."""
    lines = [f"{name} :"]
    for part in pieces(OF_TYPES.sub("", text)):
        if len(lines[-1]) + 1 + len(part) > WIDTH:
            lines.append(f"    {part}")
        else:
            lines[-1] += f" {part}"
    return lines


def written():
    """The list as the sources have it, and the names that PROVING lacks, or that no caller can import."""
    lines, known = [HEAD], []
    for name in MODULES:
        found = statements(module(f"Rattle.clru.proofs.{name}"))
        known += found
        lines += [f"use Rattle.clru.proofs.{name}.{{..}}", *(line for item in found.items() for line in shown(*item)), ""]
    section = PAGE.read_text().partition("\n## Lemmas\n")[2]
    named = re.findall(r"`([^`]+)`", " ".join(line.split("|")[2] for line in section.splitlines() if line.startswith("|")))
    wrong = [f"has no {name}" for name in known if name not in named]
    wrong += [f"names {name}, which no caller can import" for name in named if name not in known]
    return "\n".join(lines).rstrip() + "\n", wrong
