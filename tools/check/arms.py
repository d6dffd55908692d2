"""The arms of clru_rows that follow from the calls: of a cache, by their signatures, and of runs, by `clru_runs/src/call.rt`. What is around
them stands in these files."""
import re

import source

ROWS = source.CRATES / "clru_rows" / "src"
# How what a call returns is written.
SAYS = {
    "Option<&V>": "say_value({}, out)",
    "Option<V>": "say_popped({}, out)",
    "Option<(&K, &V)>": "say_found({}, out)",
    "Option<(K, V)>": "say_taken({}, out)",
    "bool": "out.truth({})",
    "usize": "Some({})",
    "()": "{}",
}
SIGNATURE = re.compile(r"pub fn (\w+)(?:<Q: Equivalent<K>>)?\(&(mut )?self(, key: Q)?\)(?: -> (.+?))?$")
NUMBERS = {"K", "V", "usize"}
WIDTH = 96


def simple_calls():
    """The calls of a cache that take nothing or a lent key and return a value, a pair, a number, a truth or nothing: the name, whether
    it is by a key, whether it may change the cache, and how what it returns is written."""
    for one in source.functions(source.CRATES / "clru"):
        if one.kind == "CLruCache" and one.is_pub:
            text = " ".join(" ".join(one.text()).split())
            match = SIGNATURE.match(re.split(r" where | ensures| requires| \{", text)[0])
            says = match and SAYS.get(match[4] or "()")
            if says:
                yield one.name, bool(match[3]), bool(match[2]), says


def alternatives(names):
    """Patterns of these names, as many in a line as fit."""
    lines = []
    for name in (f'"{name}"' for name in names):
        if lines and len(f"{lines[-1]} | {name}") + 14 < WIDTH:
            lines[-1] += f" | {name}"
        else:
            lines.append(name)
    return lines


def filled(path, arms):
    """The text of a file with these arms in the `match name` of its functions, in place of those by a name, and of `_` where they have it."""
    text = path.read_text()
    for function, lines in arms.items():
        other = r"        _ .*\n" if lines[-1].startswith("_") else ""
        found = re.search(rf'fn {function}\b(?s:.*?)match name {{\n((?:        ".*\n)*{other})', text)
        text = text[:found.start(1)] + "".join(f"        {line},\n" for line in lines) + text[found.end(1):]
    return text


def of_calls():
    """The arms of a cache's calls, by functions."""
    key, made = "&Key::next(world, words)", list(simple_calls())
    arm = lambda name, says, given="": f'"{name}" => {says.format(f"cache.{name}({given})")}'
    *by_key, (_, last) = [(name, says.format(f"cache.{name}(key)")) for name, keyed, changes, says in made if keyed and changes]
    names = alternatives(name for name, keyed, changes, _ in made if keyed and changes)
    return {
        "read": [arm(name, says, key if keyed else "") for name, keyed, changes, says in made if not changes and says != SAYS["usize"]],
        "count_of": [arm(name, says) for name, keyed, changes, says in made if not changes and says == SAYS["usize"]],
        "change": [
            *(f"{some} => by_key(cache, name, {key}, out)" for some in names),
            *(arm(name, says) for name, keyed, changes, says in made if changes and not keyed),
        ],
        "by_key": [*(f'"{name}" => {says}' for name, says in by_key), f"_ => {last}"],
    }


def numbers_of(takes):
    """How many numbers a variant takes, or `None` where it takes something else."""
    words = [word.strip() for word in takes.split(",")] if takes else []
    return len(words) if set(words) <= NUMBERS else None


def of_runs():
    """The arms of runs, by functions."""
    made = [(*it[:3], numbers_of(it[3])) for it in source.variants() if numbers_of(it[3]) is not None]
    arms = {
        kind: [f'"{name}" => {kind}::{word}{("", "(first)", "(first, second)")[count]}' for name, of, word, count in made if of == kind]
        for kind in ("Call", "PlainCall")
    }
    arity = [f"{names} => {some}" for some in (2, 0) for names in alternatives(name for name, _, _, count in made if count == some)]
    return {"arity": arity, "call_of": arms["PlainCall"], "any_call": arms["Call"]}


def written():
    """The files that are written, each with its text."""
    return {path: filled(path, arms) for path, arms in ((ROWS / "calls" / "arms.rt", of_calls()), (ROWS / "runs" / "arms.rt", of_runs()))}
