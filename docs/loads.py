#!/usr/bin/env python3
"""Writes the cases of loads over a file with 1,000 revisions of an object: data/loads.cases of store_cases.

    python3 docs/loads.py > crates/store_cases/data/loads.cases

What is wanted is written by the rules of the FileStorage format notes: a data record has the place of the object's record before it.
So a store that was just opened reads the head of the newest record, one more for each record that it passes, and the value of the one
that it finds. Nothing here runs or reads the product.
"""

REVISIONS, OID = 1000, 1
START, HEAD, TAIL = 4, 23, 8


def number(n):
    return f"{n:016x}"


def value_of(revision):
    """Four signs, so that all transactions are equally long."""
    return f"{revision:04}"


def transaction_size(value):
    return HEAD + 42 + len(value) + TAIL


def place_of(revision):
    """Where the record of a revision stands, 0 for none."""
    return START + (revision - 1) * transaction_size(value_of(revision)) + HEAD if revision else 0


def put_file():
    print("piece revisions\n  hex 46533231")
    for tid in range(1, REVISIONS + 1):
        value = value_of(tid)
        size = number(transaction_size(value) - TAIL)
        record = number(OID) + number(tid) + number(place_of(tid - 1)) + number(place_of(tid) - HEAD) + "0000" + number(len(value)) + value.encode().hex()
        print(f"  hex {number(tid)} {size} 20 000000000000 {record} {size}")
    print()


def put_case(title, at, calls):
    print(f"case {title}\nfile\n  use revisions\nscript\n  | open\n  | load {OID} {at}")
    print(f'answers\n  | opened {REVISIONS} {REVISIONS}\n  | loaded "{value_of(at)}" {at} {place_of(at)}\ncalls {calls}\n')


def main():
    print("# What a load asks the disk for in a store that was just opened over 1,000 revisions of one object: its head and its value, and")
    print("# the head of each later one. Written by docs/loads.py.\n")
    put_file()
    put_case(f"the newest of {REVISIONS:,} revisions is loaded by two calls", REVISIONS, 2)
    put_case(f"the one before the newest of {REVISIONS:,} revisions is loaded by three calls", REVISIONS - 1, 3)
    put_case(f"the first of {REVISIONS:,} revisions is loaded by a call for each of them and one more", 1, REVISIONS + 1)


if __name__ == "__main__":
    main()
