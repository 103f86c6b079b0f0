#!/usr/bin/env python3
"""Writes the cases of the documents of catalogs: data/texts.cases of catalog_cases, of texts that are of the form and of
texts that aren't, and data/calls.cases, of calls on catalogs.

    python3 docs/catalogs.py texts > crates/catalog_cases/data/texts.cases
    python3 docs/catalogs.py calls > crates/catalog_cases/data/calls.cases

What has to come is worked out by the rules of the texts and of the calls, which stand here once more: a catalog is a
dictionary from ids to columns of values, and an index is made anew from it each time. Nothing here runs or reads the
product.
"""

import random
import sys

# ---- texts, by the rules of FORMATS.md

def oid_text(oid):
    return f"{oid:016x}"


def value_text(value):
    return value.hex() or "."


def entry_line(oid, columns):
    return " ".join([oid_text(oid)] + [",".join(value_text(v) for v in sorted(c)) or "-" for c in columns]) + "\n"


def entries_text(entries):
    return "".join(entry_line(oid, entries[oid]) for oid in sorted(entries))


def index_text(kind, column, entries):
    """The text of an index as the inverse of a column."""
    keys = sorted({v for columns in entries.values() for v in columns[column]})
    lines = [f"{value_text(k)} {','.join(oid_text(o) for o in sorted(entries) if k in entries[o][column])}\n" for k in keys]
    return kind + "\n" + "".join(lines)


def documents(kinds, entries):
    return [entries_text(entries)] + [index_text(kind, n, entries) for n, kind in enumerate(kinds)]


# ---- cases

def part(key, text):
    """A part with a text below it; a text that doesn't end with LF has its bytes in hexadecimal."""
    lines = [key]
    if text.endswith("\n"):
        lines += [f"  | {line}" for line in text[:-1].replace("\r", "\\r").split("\n")]
    elif text:
        lines.append(f"  hex {text.encode().hex()}")
    return "\n".join(lines)


def case(title, *parts):
    print(f"case {title}", *parts, "", sep="\n")


def given(texts):
    return [part("entries", texts[0])] + [part("index", text) for text in texts[1:]]


def wanted(texts):
    return [part("document", text) for text in texts]


# ---- texts

A, B, C = oid_text(1), oid_text(2), oid_text(0xFEDCBA9876543210)
FIELD = "field\n"

GOOD_ENTRIES = [
    ("no entries", 1, ""),
    ("an entry without values", 1, f"{A} -\n"),
    ("a column of one value", 1, f"{A} 78\n"),
    ("the empty text among others, which it comes before", 1, f"{A} .,78\n"),
    ("values by rising bytes, the shorter one first", 1, f"{A} 61,6161,62\n"),
    ("a value of several bytes in UTF-8", 1, f"{A} c3a4,e282ac,f09f9880\n"),
    ("ids of all digits, by rising numbers", 1, f"{A} 78\n{C} -\n"),
    ("the greatest id", 1, f"{'f' * 16} -\n"),
    ("two columns", 2, f"{A} 78 79\n{B} - 79,7a\n"),
    ("no columns", 0, f"{A}\n{B}\n"),
]

BAD_ENTRIES = [
    ("no LF at the end", 1, f"{A} 78"),
    ("an empty line", 1, f"{A} 78\n\n"),
    ("an LF alone", 1, "\n"),
    ("two LFs", 0, "\n\n"),
    ("too few columns", 2, f"{A} 78\n"),
    ("too many columns", 1, f"{A} 78 79\n"),
    ("one line of too few columns", 1, f"{A} 78\n{B}\n"),
    ("a space at the end", 1, f"{A} 78 \n"),
    ("two spaces", 1, f"{A}  78\n"),
    ("a space before the id", 1, f" {A} 78\n"),
    ("an id of 15 digits", 1, f"{A[1:]} 78\n"),
    ("an id of 17 digits", 1, f"0{A} 78\n"),
    ("an id in upper case", 1, "000000000000000A 78\n"),
    ("an id with another byte", 1, "000000000000000g 78\n"),
    ("an id that stands twice", 1, f"{A} 78\n{A} 79\n"),
    ("ids that fall", 1, f"{B} 78\n{A} 78\n"),
    ("a value in upper case", 1, f"{A} 6A\n"),
    ("a value of an odd number of digits", 1, f"{A} 786\n"),
    ("a value with another byte", 1, f"{A} 7x\n"),
    ("a byte before the digits", 1, f"{A} /0\n"),
    ("a value that stands twice", 1, f"{A} 78,78\n"),
    ("values that fall", 1, f"{A} 79,78\n"),
    ("a longer value before its beginning", 1, f"{A} 6161,61\n"),
    ("an empty field", 1, f"{A} \n"),
    ("a comma alone", 1, f"{A} ,\n"),
    ("a comma at the end", 1, f"{A} 78,\n"),
    ("a dash among values", 1, f"{A} 78,-\n"),
    ("two dots", 1, f"{A} .,.\n"),
    ("a dot behind a value", 1, f"{A} 78,.\n"),
    ("a value that isn't UTF-8", 1, f"{A} ff\n"),
    ("a value of the half of a character", 1, f"{A} c3\n"),
    ("a surrogate", 1, f"{A} eda080\n"),
    ("CR before LF", 1, f"{A} 78\r\n"),
    ("a text that is no entry", 1, "words\n"),
]

GOOD_INDEXES = [
    ("no keys", FIELD),
    ("a key of one object", FIELD + f"78 {A}\n"),
    ("a key of two objects", FIELD + f"78 {A},{B}\n"),
    ("the empty text as a key", FIELD + f". {A}\n78 {B}\n"),
    ("keys by rising bytes", "keyword\n" + f"61 {A}\n6161 {A},{B}\n62 {C}\n"),
]

BAD_INDEXES = [
    ("nothing", ""),
    ("no LF at the end", "field"),
    ("another kind", "words\n"),
    ("a kind in upper case", "Field\n"),
    ("a space behind the kind", "field \n"),
    ("an empty line", FIELD + "\n"),
    ("a key without ids", FIELD + "78\n"),
    ("a key and a space", FIELD + "78 \n"),
    ("a key that stands twice", FIELD + f"78 {A}\n78 {B}\n"),
    ("keys that fall", FIELD + f"79 {A}\n78 {A}\n"),
    ("the empty text behind another", FIELD + f"78 {A}\n. {A}\n"),
    ("an id that stands twice", FIELD + f"78 {A},{A}\n"),
    ("ids that fall", FIELD + f"78 {B},{A}\n"),
    ("a dash for the ids", FIELD + "78 -\n"),
    ("a dash for the key", FIELD + f"- {A}\n"),
    ("a comma at the end", FIELD + f"78 {A},\n"),
    ("a third field", FIELD + f"78 {A} {B}\n"),
    ("an id of 15 digits", FIELD + f"78 {A[1:]}\n"),
    ("an id in upper case", FIELD + "78 000000000000000A\n"),
    ("a key that isn't UTF-8", FIELD + f"ff {A}\n"),
    ("two keys in one field", FIELD + f"78,79 {A}\n"),
    ("the kind twice", FIELD + FIELD),
]


def write_texts():
    print("# Texts of the documents of catalogs, of the form and not; docs/catalogs.py writes them.\n")
    plain = [FIELD, FIELD]
    for title, columns, text in GOOD_ENTRIES:
        texts = [text] + plain[:columns]
        case(f"entries: {title}", *given(texts), *wanted(texts))
    for title, columns, text in BAD_ENTRIES:
        case(f"bad entries: {title}", *given([text] + plain[:columns]), "bad entries")
    for title, text in GOOD_INDEXES:
        texts = ["", text]
        case(f"index: {title}", *given(texts), *wanted(texts))
    for title, text in BAD_INDEXES:
        case(f"bad index: {title}", *given(["", text]), "bad index 0")
    case("the first bad index is told", *given(["", FIELD, "words\n", ""]), "bad index 1")
    case("the entries are judged first", *given(["words\n", "words\n"]), "bad entries")
    case("what is compared differs: a document", *given(["", FIELD]), part("document", FIELD), "differs")
    case("what is compared differs: a search", *given([f"{A} 78\n", FIELD + f"78 {A}\n"]), "find 0 x", "found", "differs")
    case("what is compared differs: a bad document", *given(["words\n", FIELD]), "bad index 0", "differs")


# ---- calls

class Catalog:
    """A catalog, with the calls that were made on it."""

    def __init__(self):
        self.kinds, self.entries, self.calls = [], {}, []

    def add(self, kind):
        self.kinds.append(kind)
        for columns in self.entries.values():
            columns.append([])
        self.calls.append(f"add {kind}")

    def enter(self, oid, *columns):
        self.entries[oid] = [list(column) for column in columns]
        self.calls.append(part("enter", entry_line(oid, columns)))

    def remove(self, oid):
        self.entries.pop(oid, None)
        self.calls.append(f"remove {oid_text(oid)}")

    def find(self, *named):
        """A search by indexes, each with the values of which a hit has one."""
        hits = [o for o in sorted(self.entries) if all(set(given).intersection(*self.entries[o][index:index + 1]) and self.entries[o][index:] for index, given in named)]
        words = " and ".join(" ".join([str(index)] + [value.decode() or '""' for value in given]) for index, given in named)
        return f"find {words}", " ".join(["found"] + [oid_text(o) for o in hits])

    def texts(self):
        return documents(self.kinds, self.entries)

    def case(self, title, before=(), searches=()):
        found = [self.find(*named) for named in searches]
        case(title, *before, *self.calls, *[asked for asked, _ in found], "verify", *wanted(self.texts()), *[answer for _, answer in found], "agrees")

    def begin_anew(self):
        """The documents so far are given, and the calls begin behind them."""
        before, self.calls = given(self.texts()), []
        return before


def write_small():
    c = Catalog()
    c.case("a new catalog")
    c.add("keyword")
    c.case("a new index")
    c.enter(1, [b"x", b"y"])
    c.case("an object of two values")
    c.enter(2, [b"y"])
    one = [(0, [b"y"])], [(0, [b"x"])], [(0, [b"z"])], [(0, [b"x", b"y"])], [(0, [b"y", b"x", b"y"])], [(0, [])], [(1, [b"y"])]
    c.case("two objects that share one", searches=one)
    before = c.begin_anew()
    c.enter(1, [b"z"])
    c.case("an object with another value", before, one)
    c.enter(1, [])
    c.case("an object without values", before)
    c.remove(2)
    c.case("the last object of a key goes, and the key with it", before)
    c.remove(3)
    c.case("an object that isn't there goes", before)
    c.add("field")
    c.case("a second index behind objects", before)
    c.enter(2, [b""], [b"12"])
    c.case("the empty text and a number", before)
    c.enter(0, [b"", b"\xc3\xa4"], [])
    c.case("the root comes first", before)
    c.enter(2**64 - 1, [b"a", b"aa", b"b"], [b"12"])
    c.case("the greatest id comes last", before)


def write_same():
    c = Catalog()
    c.add("keyword")
    for oid in range(1, 6):
        c.enter(oid, [b"k"])
    before = c.begin_anew()
    c.enter(3, [b"k"])
    c.case("what is catalogued as it is changes nothing", before)


def write_places():
    """A key before, at, between and behind those of an index."""
    for number, keys in enumerate([[b"a"], [b"b"], [b"c"], [b"f"], [b"g"], [b"a", b"b", b"c", b"d", b"e", b"f", b"g"], [b"a", b"g"], [b"b", b"d", b"f"], [b"c", b"e"], [b"a", b"aa", b"b"]]):
        c = Catalog()
        c.add("keyword")
        c.enter(4, [b"b", b"d", b"f"])
        before = c.begin_anew()
        c.enter(3, keys)
        c.case(f"places of keys, {number + 1}: an object before the other", before)
        c.enter(5, keys)
        c.case(f"places of keys, {number + 1}: and one behind it", before)


def write_unequal():
    """Documents that don't agree change as each of them says, since no call reads a column to change an index."""
    entries, index = entry_line(1, [[b"x"]]), FIELD + f"79 {A},{B}\n7a {B}\n"
    case("documents that differ: a search looks at the index alone", *given([entries, index]), "find 0 y", "find 0 x", *wanted([entries, index]), f"found {A} {B}", "found")
    case("documents that differ: the first index is told", *given([entries_text({1: [[b"x"], [b"y"]]}), FIELD + f"78 {A}\n", FIELD]), "verify", "differs_at 1")
    case("documents that differ: an id too many", *given([entries_text({1: [[b"x"]], 2: [[]]}), FIELD + f"78 {A},{B}\n"]), "verify", "differs_at 0")
    case("documents that differ: a key too many", *given([entries_text({1: [[b"x"]]}), FIELD + f"78 {A}\n79 {A}\n"]), "verify", "differs_at 0")
    case("documents that differ: an object without an entry", *given([entries_text({1: [[b"x"]]}), FIELD + f"78 {A}\n79 {B}\n"]), "verify", "differs_at 0")
    case("documents that differ: an object is put in", *given([entries, index]), part("enter", entry_line(2, [[b"x"]])), *wanted([entries + entry_line(2, [[b"x"]]), FIELD + f"78 {B}\n79 {A}\n"]))
    case("documents that differ: an object is taken out", *given([entries, index]), f"remove {B}", *wanted([entries, FIELD + f"79 {A}\n"]))


def write_many():
    """Calls by a seed, over few objects and few values, so that keys come and go."""
    for seed in range(12):
        rng, c, before = random.Random(seed), Catalog(), []
        for _ in range(1 + seed % 3):
            c.add(rng.choice(["field", "keyword"]))
        values = [b"", b"a", b"aa", b"ab", b"b", "ä".encode(), b"10", b"9"]
        for step in range(30):
            oid = rng.choice([0, 1, 2, 3, 7, 2**32, 2**64 - 1])
            if rng.random() < 0.25:
                c.remove(oid)
            else:
                c.enter(oid, *[rng.sample(values, rng.choice([0, 1]) if kind == "field" else rng.randrange(5)) for kind in c.kinds])
        pick = lambda: (rng.randrange(len(c.kinds)), rng.sample(values, rng.randrange(1, 4)))
        c.case(f"thirty calls, seed {seed}", before, [[pick() for _ in range(rng.randrange(1, 4))] for _ in range(12)])


def write_large():
    c = Catalog()
    c.add("keyword")
    c.add("field")
    for oid in range(1, 2001):
        c.entries[oid] = [[b"%d" % (oid % 50), b"all"], [b"%d" % oid]]
    before = c.begin_anew()
    c.enter(1000, [b"all", b"other"], [b"new"])
    many = [(0, [b"7"])], [(0, [b"all"]), (1, [b"1000", b"new", b"3"])], [(1, [b"%d" % n for n in range(2000, 0, -3)])]
    c.case("one of two thousand objects", before, many)


def write_calls():
    print("# Calls on catalogs; docs/catalogs.py writes them.\n")
    for write in (write_small, write_same, write_places, write_unequal, write_many, write_large):
        write()


if __name__ == "__main__":
    {"texts": write_texts, "calls": write_calls}[sys.argv[1]]()
