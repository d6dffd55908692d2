"""What tools read of the repository: its crates, their files, functions and mutants, the lines of scripts, and other tools."""
import importlib.machinery
import importlib.util
import pathlib
import re

TOP = pathlib.Path(__file__).resolve().parent.parent.parent
CRATES, SCRIPTS = TOP / "crates", TOP / "scripts"
# Crates of tests and of examples; all others are the product.
NO_PRODUCT = re.compile(r"clru_(files|rows|script|uses)|\w+_tests")
FUNCTION = re.compile(r"(\s*)(pub(?:\([a-z]+\))? )?(?:const |extern \"C\" )*fn (\w+)")
LEAVES_IMPL = re.compile(r"\}|(?:pub(?:\(\w+\))? )?(?:const |extern \"C\" )*(?:fn|trait|mod)\b")
# The kinds of blocks that scripts have.
SUBJECTS = re.findall(r'"(\w+)"', "".join((CRATES / name).read_text() for name in ("clru_rows/src/kinds.rt", "clru_script/src/main.rt")))


def tool(path):
    """A tool without a suffix, as a module."""
    loader = importlib.machinery.SourceFileLoader(f"{path.name}_tool", str(path))
    found = importlib.util.module_from_spec(importlib.util.spec_from_loader(loader.name, loader))
    loader.exec_module(found)
    return found


def lines_by_name(text):
    """The lines of a crates.txt, by the names of crates."""
    return {found[1]: line for line in text.splitlines() if (found := re.match(r"(\w+).*:", line))}


def with_below(names, lines):
    """These crates and all that they are built on, the lowest first, as the lines have them."""
    found, left = set(), list(names)
    while left:
        name = left.pop()
        if name not in found:
            found.add(name)
            left += lines[name].partition(":")[2].split()
    return [name for name in lines if name in found]


def product():
    """The folders of the product's crates."""
    return [path for path in sorted(CRATES.iterdir()) if not NO_PRODUCT.fullmatch(path.name)]


def files(crate):
    """The files of a crate's code, but for modules of tests."""
    for path in sorted((crate / "src").rglob("*.rt")):
        if not {"tests", "tests.rt"} & set(path.relative_to(crate).parts):
            yield path


def all_files(kinds):
    """The files of code, definitions and proofs of all crates."""
    for part in ("src", "specs", "proofs"):
        for path in sorted(CRATES.glob(f"*/{part}/**/*")):
            if path.suffix in kinds:
                yield path


def without_generics(text):
    """The text without what stands in angle brackets."""
    kept, depth = "", 0
    for at, letter in enumerate(text):
        if letter == "<":
            depth += 1
        elif letter == ">" and text[at - 1] not in "-=":
            depth -= 1
        elif depth == 0:
            kept += letter
    return kept


def owner(head):
    """The type and the trait of an `impl`, the trait of an inherent one being ''."""
    trait, is_for, kind = without_generics(head.split(" where")[0]).removeprefix("impl").rpartition(" for ")
    return re.sub(r"'\w+|\s", "", kind), re.findall(r"\w+", trait)[-1] if is_for else ""


class Function:
    """A function by its crate's file, its type and its trait, with its lines (from 0), its doc comment and whether others may call it."""

    def __init__(self, path, kind, trait, name, lines, doc, is_pub, public):
        self.path, self.kind, self.trait, self.name, self.lines, self.doc = path, kind, trait, name, lines, doc
        self.is_pub, self.public = is_pub, public
        self.key = f"{kind}::{name}" if kind else name
        self.is_law = name.startswith("law_")

    def text(self):
        return self.path.read_text().splitlines()[self.lines.start:self.lines.stop]

    def calls(self, name):
        return any(re.search(rf"\b{name}\(", line) for line in self.text()[1:])

    def clauses(self):
        """The labels of the clauses of what it promises, in order, '' of one without."""
        lines = self.text()
        indent = lines[0][:len(lines[0]) - len(lines[0].lstrip())]
        begin = next((at for at, line in enumerate(lines) if line in (indent + "{", indent + "{}")), 0)
        return re.findall(r"^\s*ensures\*?(?: (\w+))? \{", "\n".join(lines[:begin]), re.M)

    def where(self):
        return f"{self.path.relative_to(TOP)}: {self.key}"


def doc_above(lines, at):
    """The doc comment above a line, attributes left out."""
    doc = []
    while at and lines[at - 1].strip().startswith(("///", "#[")):
        at -= 1
        if lines[at].strip().startswith("///"):
            doc.insert(0, lines[at].strip()[3:].strip())
    return doc


def functions_of(path):
    """The functions of a file; what stands behind `#[cfg(test)]` is left out."""
    lines = path.read_text().split("#[cfg(test)]")[0].splitlines()
    kind, trait, states = "", "", True
    for at, line in enumerate(lines):
        if re.match(r"impl\b", line):
            kind, trait = owner(" ".join(" ".join(lines[at:at + 20]).split("{")[0].split()))
            states = trait != "Debug" or "ghost debug_output" in "\n".join(lines[at:]).split("\n}")[0]
        elif LEAVES_IMPL.match(line):
            kind = trait = ""
        match = FUNCTION.match(line)
        if match and (kind or not match[1]):
            closes = (match[1] + "}", match[1] + "{}")
            end = next((to for to in range(at + 1, len(lines)) if lines[to] in closes), len(lines) - 1)
            is_pub = match[2] == "pub "
            public = is_pub or trait not in ("", "Drop") and states
            yield Function(path, kind, trait, match[3], range(at, end + 1), doc_above(lines, at), is_pub, public)


def functions(crate):
    """The functions of a crate, private ones too. Those that an `impl` of a trait has for a public type are public, but for `drop`, which
    nobody calls, and the `fmt` of a `Debug` that states no text. Where one type has a name from several traits, its key has the trait."""
    found, private_types = [], set()
    for path in files(crate):
        text = path.read_text().split("#[cfg(test)]")[0]
        private_types |= set(re.findall(r"^(?:pub\(\w+\) )?(?:struct|enum|union) (\w+)", text, re.M))
        found += functions_of(path)
    for one in found:
        one.public = one.public and one.kind.strip("&") not in private_types
    keys = [one.key for one in found if one.public]
    for one in found:
        if one.trait and keys.count(one.key) > 1:
            one.key = f"{one.kind}::{one.trait}::{one.name}"
    return found


def mutants(crate, all_functions):
    """The mutants of each public function that has one: it changes a line of the function, or private code alone and begins with its
    name. Where several types have that name, the function has to call the private one."""
    found = {}
    for edit in sorted((crate / "mutants").glob("*.edit")):
        path, hit = None, []
        for line in edit.read_text().splitlines():
            if line.startswith("file: "):
                path = crate / line[len("file: "):].strip()
            elif line.startswith("old: "):
                at = path.read_text().partition(line[len("old: "):])[0].count("\n")
                hit += [one for one in all_functions if one.path == path and at in one.lines]
        changed = [one for one in hit if one.public]
        if not changed:
            same = [one for one in all_functions if one.public and one.name == edit.name.split("-")[0]]
            changed = same if len(same) == 1 else [one for one in same if any(one.calls(private.name) for private in hit)]
        for key in {one.key for one in changed}:
            found.setdefault(key, []).append(edit.stem)
    return found


def variants():
    """The calls of `clru_runs` in order, as functions are named, each with its enum and the words of what it takes."""
    text = (CRATES / "clru_runs" / "src" / "call.rt").read_text()
    for kind in ("Call", "PlainCall"):
        body = re.search(rf"^pub enum {kind}<K, V> {{\n(.*?)^}}", text, re.M | re.S)[1]
        for word, takes in re.findall(r"^    ([A-Z]\w+)(?:\((.*)\))?,", body, re.M):
            yield re.sub(r"(?<!^)([A-Z])", r"_\1", word).lower(), kind, word, takes


def script_lines():
    """The lines of scripts, as (script, subject of the block, line without its answer), `times` and `each` left out."""
    for script in sorted(SCRIPTS.glob("*.calls")):
        subject = ""
        for text in script.read_text().splitlines():
            line = re.sub(r"^(times|each \d+) \d+ ", "", " ".join(text.split("->")[0].split("#")[0].split()))
            if line:
                subject = line.split()[0] if line.split()[0] in SUBJECTS and line != "list" else subject
                yield script, subject, line
