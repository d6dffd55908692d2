"""Builds our workloads, our program and the driver of the peers, all of it in a folder outside of the repository.

The gate takes no Rattle file of the repository that stands in none of its crates."""

import fcntl
import os
import re
import shutil
import subprocess
import sys
from dataclasses import dataclass
from pathlib import Path

CRATE = "clru_bench"
LIBRARIES = ("clru", "clru_curve", "clru_least")
PROGRAMS = ("clru_replay", "clru_mrc")
PACKAGES = ("lru", "hashlink")
REGISTRY = Path("/usr/share/cargo/registry")
LOCKED = re.compile(r'name = "(.*)"\nversion = "(.*)"')


@dataclass
class Built:
    work: Path
    driver: Path
    programs: list
    names: dict  # by cache, ours first: what its column is headed by
    tools: str


def stop(why):
    sys.exit(f"bench: {why}")


def build_all(bench, work, clru, programs=PROGRAMS):
    kit = kit_of()
    want_packages()
    lay_ours(bench, work / "ours", [*programs, *LIBRARIES])
    print("bench: proving and building our side", file=sys.stderr)
    crates = work / "ours" / "crates"
    call(work, ["rt", "lib"], crates / CRATE)
    for program in programs:
        call(work, ["rt", "run"], crates / program, given="1\n")
    print("bench: building the peers", file=sys.stderr)
    libraries = [crates / CRATE / "out" / f"lib{CRATE}.a", kit / "c" / "liblibc_c.a"]
    names = build_peers(bench, work, clru, libraries)
    driver = work / "peers" / "target" / "release" / "driver"
    commands = [crates / it / "out" / it for it in programs]
    tools = f"{first_line('rt', 'version')}; {first_line('rustc', '--version')}"
    return Built(work, driver, commands, {"ours": "ours", **names}, tools)


def build_script(bench, work, clru):
    """Builds the driver that answers scripts by the Rust crate clru. A sum that overflows panics in it."""
    want_packages()
    peers = lay_peers(bench, work, clru)
    call(work, ["cargo", "build", "-p", "script"], peers)
    return peers / "target" / "debug" / "script"


def want_packages():
    missing = [it for it in PACKAGES if not any(REGISTRY.glob(f"{it}-[0-9]*"))]
    if missing or not shutil.which("cargo"):
        stop(f"install cargo, {', '.join(f'librust-{it}-dev' for it in PACKAGES)}")


def kit_of():
    found = shutil.which("rt")
    if not found:
        stop("the Rattle kit's bin is not on the PATH")
    return Path(found).resolve().parent.parent


def first_line(*words):
    return subprocess.run(words, stdout=subprocess.PIPE, text=True, check=True).stdout.split("\n")[0]


def call(work, words, folder, given="", more=None):
    """Runs a command of the build, whose output goes to a file."""
    log = work / "log"
    variables = {**os.environ, **(more or {})}
    with open(log, "w") as out:
        ran = subprocess.run(words, cwd=folder, input=given, text=True, stdout=out, stderr=out, env=variables)
    if ran.returncode:
        print(log.read_text()[-3000:], file=sys.stderr)
        stop(f"{' '.join(words)} failed in {folder}")


def replace(source, to):
    shutil.rmtree(to, ignore_errors=True)
    if source.is_dir():
        shutil.copytree(source, to)


def lay_ours(bench, ours, wanted):
    """Copies the crates that are measured, and what they stand on, beside the crate of the workloads."""
    top = bench.parent
    rows = [it.partition("#")[0].strip() for it in (top / "crates.txt").read_text().split("\n")]
    uses = {name.strip(): words.split() for name, _, words in (it.partition(":") for it in rows if it)}
    for name in wanted:
        wanted += [it for it in uses[name] if it in uses and it not in wanted]
    for name in wanted:
        lay_crate(top / "crates" / name, ours / "crates" / name)
    lines = [f"{it}: {' '.join(uses[it])}\n" for it in wanted]
    (ours / "crates.txt").write_text("".join([*lines, f"{CRATE} staticlib: {' '.join(LIBRARIES)} libc\n"]))
    source = ours / "crates" / CRATE / "src"
    shutil.rmtree(source, ignore_errors=True)
    source.mkdir(parents=True)
    for file in (bench / "ours").iterdir():
        shutil.copy2(file, source / file.name.removesuffix(".in"))


def lay_crate(crate, to):
    """Copies a crate, and what its own checks kept where that is newer and no check runs there, so that it need not be
    proved once more."""
    to.mkdir(parents=True, exist_ok=True)
    for part in ("src", "specs", "proofs"):
        replace(crate / part, to / part)
    stamp = "out/rlib/stamp"  # (a program has none)
    lock = os.open(crate, os.O_RDONLY)
    try:
        fcntl.flock(lock, fcntl.LOCK_EX | fcntl.LOCK_NB)
        if time_of(crate / stamp) > time_of(to / stamp) or not (to / "out").exists():
            replace(crate / "out", to / "out")
    except BlockingIOError:
        pass
    finally:
        os.close(lock)


def time_of(file):
    return file.stat().st_mtime if file.exists() else 0


def build_peers(bench, work, clru, libraries):
    """Builds the driver, and answers the names of the peers with their versions."""
    peers = lay_peers(bench, work, clru)
    words = ["cargo", "build", "--release", *(["--features", "driver/clru"] if clru else [])]
    call(work, words, peers, more={"BENCH_LIBRARIES": ":".join(map(str, libraries))})
    versions = dict(LOCKED.findall((peers / "Cargo.lock").read_text()))
    if clru:
        manifest = clru / "Cargo.toml"
        found = LOCKED.search(manifest.read_text()) if manifest.exists() else None
        versions["clru"] = found[2] if found else ""
    return {it: f"{it} {versions[it]}".strip() for it in (*PACKAGES, *(["clru"] if clru else []))}


def lay_peers(bench, work, clru):
    """Copies the peers, with the source of the Rust crate clru in its place where it is given."""
    peers = work / "peers"
    # (a copy keeps no time: cargo would take an older file for one that it has built)
    shutil.copytree(bench / "peers", peers, copy_function=shutil.copy, dirs_exist_ok=True)
    if clru:
        shutil.copytree(clru / "src", peers / "clru" / "src", copy_function=shutil.copy, dirs_exist_ok=True)
    return peers
