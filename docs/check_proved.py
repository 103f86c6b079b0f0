#!/usr/bin/env python3
"""Looks that what the documents name is there.

Of every document: each file, module and link, and each name that stands behind a module; of ARCHITECTURE each file of a
crate, of DEFINITIONS each module, of PROVED each function and clause; and that all name one toolchain. Prints for each document
how many names were looked up. Each that isn't found is printed with its line, and the status is then 1.
"""

import functools
import pathlib
import re
import shutil
import subprocess
import sys

HOME = pathlib.Path(__file__).resolve().parent.parent
CRATES = {folder.name for folder in (HOME / "crates").iterdir() if (folder / "src").is_dir()}
DOCUMENTS = [HOME / "README.md", *sorted((HOME / "docs").glob("*.md")), HOME / "bench" / "README.md", HOME / "checks" / "README.md"]
PLACES = ("src", "specs", "proofs", "data", "must-fail")
FILE = re.compile(r"[\w./-]*\w\.(?:rt|antt|py|md|cases|schedule|lines|png|1)")


@functools.cache
def names_in(crate):
    """The names of a crate: its functions, types, traits, clauses, ghost members, definitions and modules."""
    found = set()
    for source in (HOME / "crates" / crate / "src").rglob("*.rt"):
        text = source.read_text()
        found |= set(re.findall(r"\b(?:fn|struct|enum|trait|type|const|ghost|mod)\s+(\w+)", text))
        found |= set(re.findall(r"\b(?:ensures|requires)\s+(\w+)\s*\{", text))
    for source in (HOME / "crates" / crate / "specs").rglob("*.antt"):
        found.add(source.stem)
        text = source.read_text()
        found |= set(re.findall(r"^\s*(?:abbrev |unfoldable |data |record )*pub (?:record |data )?(\w+)", text, re.M))
        found |= set(re.findall(r"^pub (\w+)", text, re.M))
    return found


def module_at(crate, name):
    """The file or folder of that name in a crate, as `specs/Hex`, `src/top.rt` or `data`, or none."""
    path = HOME / "crates" / crate / name
    return next((each for ending in (".antt", ".rt", "") if (each := path.with_name(path.name + ending)).exists()), None)


def speaks_of(crate, module, word):
    """Whether a crate's module has that word, or a module of that name stands beside it."""
    found = module_at(crate, module)
    beside = module_at(crate, f"{module.rpartition('/')[0]}/{word}")
    return bool(beside or found and found.is_file() and re.search(rf"\b{word}\b", found.read_text()))


def exists(word, near, folder):
    """Whether a file or module is there: from the top, beside the document, or in one of the crates that stand near."""
    first, _, rest = word.partition("/")
    if first in CRATES and rest:
        return bool(module_at(first, rest))
    if (HOME / word).exists() or (folder / word).exists() or (HOME / "crates" / word).exists():
        return True
    if first in PLACES:
        return any(module_at(crate, word) for crate in near)
    return "/" not in word and any(any((HOME / "crates" / crate).glob(f"{place}/{word}")) for crate in near or CRATES for place in PLACES)


def is_file(word):
    """Whether a word between backticks names a file or a module. One that begins with / is an address, or elsewhere."""
    first = word.split("/")[0]
    if word.startswith("/") or not re.fullmatch(r"[\w./-]+", word) or "NAME" in word or word.strip("/") in PLACES:
        return False
    return bool(FILE.fullmatch(word)) or ("/" in word and (first in CRATES or first in PLACES or (HOME / first).is_dir()))


def near_in(line):
    """The crates that a line names, by themselves or at the front of a path."""
    words = re.findall(r"`([^`]+)`", line)
    return {word.split("/")[0] for word in words} & CRATES


def headings_of(path):
    """The names by which links lead to a document's headings."""
    titles = re.findall(r"^#+ (.*)$", path.read_text(), re.M)
    return {re.sub(r"[^\w -]", "", title).lower().replace(" ", "-") for title in titles}


class Document:
    """A document, and what was looked up in it."""

    def __init__(self, path):
        self.path, self.looked_up, self.lost = path, 0, 0

    def look(self, number, what, found):
        self.looked_up += 1
        if not found:
            self.lost += 1
            print(f"{self.path.relative_to(HOME)} line {number}: there is no {what}")

    def lines(self):
        """Its lines outside blocks of code, each with its number and the crates that its section has named by then."""
        near, in_code = set(), False
        for number, line in enumerate(self.path.read_text().splitlines(), 1):
            if line.startswith("```"):
                in_code = not in_code
            elif not in_code:
                near = near_in(line) if line.startswith("#") else near | near_in(line)
                yield number, line, near

    def files(self):
        """Files, modules, and the names that stand in one row with a module, behind it."""
        for number, line, near in self.lines():
            for words in re.findall(r"`[^`]+`(?:,? (?:and |with |or )?`[^`]+`)*", line):
                crates, module = (), ""
                for word in re.findall(r"`([^`]+)`", words):
                    if is_file(word):
                        self.look(number, word, exists(word, near, self.path.parent))
                        first, _, rest = word.partition("/")
                        crates, module = ((first,), rest) if first in CRATES else (near if first in PLACES else (), word)
                    elif crates and word not in CRATES and re.fullmatch(r"\w+", word):
                        self.look(number, f"{word} in {module}", any(speaks_of(crate, module, word) for crate in crates))

    def links(self):
        """What a link names, and the heading behind a #."""
        for number, line, _ in self.lines():
            for target, heading in re.findall(r"\]\(([^)#\s]*)#?([^)\s]*)\)", line):
                if "://" not in target:
                    path = self.path.parent / target if target else self.path
                    self.look(number, f"{target}#{heading}", path.exists() and (not heading or heading in headings_of(path)))

    def commands(self):
        """What blocks of the shell name with a path, from the top or from the folder of a line `cd`."""
        for block in re.finditer(r"^```sh\n(.*?)^```", self.path.read_text(), re.M | re.S):
            folder, number = HOME, self.path.read_text()[: block.start()].count("\n") + 1
            for line in block.group(1).splitlines():
                number += 1
                moved = re.match(r"cd (\S+)$", line)
                folder = HOME / moved.group(1) if moved else folder
                for word in re.findall(r"(?<![\w/.-])(?:\./)?[\w.-]+/[\w./-]+|\./\w+", re.sub(r"https?://\S*", "", line)):
                    if "NAME" not in word:
                        self.look(number, word, (HOME / word if moved else folder / word).exists())

    def rows(self):
        """Its rows of tables, each with its number, the last crate that began one, and its cells."""
        crate = None
        for number, line in enumerate(self.path.read_text().splitlines(), 1):
            cells = [cell.strip() for cell in line.strip().strip("|").split(" | ")]
            if not line.startswith("|") or cells[0].startswith("---"):
                continue
            if cells[0].strip("`") in CRATES:
                crate = cells[0].strip("`")
            yield number, crate, cells


def home_of(trait):
    """The names of the crate whose trait that is."""
    for crate in CRATES:
        if any(f"trait {trait}" in source.read_text() for source in (HOME / "crates" / crate / "src").glob("*.rt")):
            return names_in(crate)
    return set()


def look_at_clauses(document):
    """PROVED: each function and clause is in the crate of its row."""
    for number, crate, cells in document.rows():
        if len(cells) < 3 or crate is None:
            continue
        # a type's clauses as a trait of another crate are that trait's
        trait = re.search(r"as an? `(\w+)`", cells[-1])
        known = names_in(crate) | home_of(trait.group(1)) if trait else names_in(crate)
        for word in re.findall(r"`([^`]+)`", cells[-1]):
            for name in re.split(r"::|/", word):
                document.look(number, f"{name} in {crate}", name == "specs" or name in known)


def look_at_files(document):
    """ARCHITECTURE: each crate of `crates.txt` has a row, and each file that a row of a crate's files names is there."""
    text = document.path.read_text()
    for crate in sorted(CRATES):
        document.look(0, f"row of {crate}", re.search(rf"^\|[^|]*`{crate}`", text, re.M))
    for number, crate, cells in document.rows():
        if crate and len(cells) == 2 and cells[0].strip("`") == crate and number > text[: text.index("## The files")].count("\n"):
            for name in re.findall(r"`(\w+)`", re.sub(r"\([^)]*\)", "", cells[1])):
                document.look(number, f"{crate}/src/{name}.rt", name == "lib" or module_at(crate, f"src/{name}"))


def look_at_modules(document):
    """DEFINITIONS: the modules of a row, of which the first has its crate's name."""
    for number, _, cells in document.rows():
        place = None
        for word in re.findall(r"`([\w/]+)`", re.sub(r"\([^)]*\)", "", cells[1])) if len(cells) == 3 else []:
            place = word.rsplit("/", 1)[0] if "/" in word else place
            name = word.rsplit("/", 1)[-1]
            document.look(number, f"{place}/{name}", place and name and exists(f"{place}/{name}", (), HOME) or word.endswith("/"))


def look_at_toolchains():
    """Every document names one toolchain; whether it is the one that is here is told, and no fault of the documents."""
    found = {line for path in DOCUMENTS for line in re.findall(r"rattle-kit-\S+ logic \w+", path.read_text())}
    if shutil.which("rt"):
        version = subprocess.run(["rt", "version"], capture_output=True, text=True, check=True).stdout.strip()
        if found != {version}:
            print(f"the documents name {', '.join(sorted(found))}; here is {version}")
    return len(found) != 1


def main():
    by_name = {"PROVED.md": look_at_clauses, "ARCHITECTURE.md": look_at_files, "DEFINITIONS.md": look_at_modules}
    lost = 0
    for path in DOCUMENTS:
        document = Document(path)
        document.files()
        document.links()
        document.commands()
        by_name.get(path.name, lambda _: None)(document)
        print(f"{path.relative_to(HOME)}: {document.looked_up} names looked up, {document.lost} not found")
        lost += document.lost or not document.looked_up
    return 1 if look_at_toolchains() or lost else 0


if __name__ == "__main__":
    sys.exit(main())
