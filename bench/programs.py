"""Small programs over the crates, proved and built in a scratch repository.

Their files end in `.in`, since they are none of the crates that the gate checks.
"""

import os
import pathlib
import shutil
import subprocess
import tempfile

HOME = pathlib.Path(__file__).resolve().parent.parent


def libraries(names):
    """The lines of `crates.txt` for these crates and all below them."""
    lines = dict(line.split(":") for line in (HOME / "crates.txt").read_text().splitlines())
    wanted, left = {}, list(names)
    while left:
        name = left.pop()
        if name in lines and name not in wanted:
            wanted[name] = lines[name].split()
            left += wanted[name]
    return wanted


def scratch(folder, name, uses):
    """A repository in the folder with the program of that name in `bench/`, over the crates that it uses."""
    crates = folder / "crates"
    crates.mkdir()
    wanted = libraries(uses)
    for library in wanted:
        shutil.copytree(HOME / "crates" / library, crates / library)
    for kept in (HOME / "bench" / name).rglob("*.in"):
        copy = crates / name / kept.relative_to(HOME / "bench" / name).with_suffix("")
        copy.parent.mkdir(parents=True, exist_ok=True)
        shutil.copy(kept, copy)
    for sub in ("specs", "proofs"):
        (crates / name / sub).mkdir(exist_ok=True)
        (crates / name / sub / "Lib.antt").touch()
    lines = [f"{crate}: {' '.join(below)}".strip() for crate, below in wanted.items()]
    (folder / "crates.txt").write_text("\n".join(lines + [f"{name}: {' '.join(uses)}", ""]))
    subprocess.run(["git", "init", "-q"], cwd=folder, check=True)
    return crates / name


# The C library's allocator keeps what was freed. Else it hands large pieces back to the system and has them anew, and
# what is measured is the system's work on pages.
KEEPING = {"MALLOC_MMAP_THRESHOLD_": str(1 << 30), "MALLOC_TRIM_THRESHOLD_": str(1 << 30), "MALLOC_TOP_PAD_": str(1 << 26)}


def lines_of(program, keeps_memory, words=()):
    """What a program prints that is given these words: each line as its words. Where it doesn't end well, what it said is raised."""
    kept = KEEPING if keeps_memory else {}
    if os.environ.get("BENCH_ONLY_PROVES"):
        # for a look whether it still can be built
        done = subprocess.run(["rt", "check"], cwd=program, capture_output=True, text=True)
        raise SystemExit(done.stdout + done.stderr if done.returncode else 0)
    done = subprocess.run(["rt", "run", "--", *words], cwd=program, capture_output=True, text=True, env=os.environ | kept)
    if done.returncode:
        raise SystemExit(done.stdout + done.stderr)
    return [line.split() for line in done.stdout.splitlines()]


def numbers_in(lines):
    """The numbers of each kind and size, from lines of a kind, a size and a number."""
    numbers = {}
    for words in lines:
        if len(words) == 3 and words[1].isdigit() and words[2].isdigit():
            numbers.setdefault((words[0], int(words[1])), []).append(int(words[2]))
    return numbers


def least(lines):
    """The least time of each kind and size, in seconds, from lines of a kind, a size and microseconds."""
    return {key: min(micros) / 1e6 for key, micros in numbers_in(lines).items()}


def best_of(name, uses, keeps_memory=False):
    """The least time of each kind and size, in seconds, that a program prints as lines of a kind, a size and microseconds."""
    with tempfile.TemporaryDirectory() as made:
        return least(lines_of(scratch(pathlib.Path(made), name, uses), keeps_memory))
