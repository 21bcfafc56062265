#!/usr/bin/env python3
"""Measures the properties of objects and the look-ups along prototypes.

Run at the top of the repository, after `rt run` in crates/widl_bench has built the program:

    python3 bench/store.py

It prints the nanoseconds of a look-up in objects of 2^4 to 2^20 properties, first of 16 keys again and again and then of
as many keys as there are, up to 2^20 and in no order, so that each is fetched from where the machine keeps it; then the
time that 65,536 properties take to be put, found and deleted, with the making of their keys, the time of one look-up
along 100,000 prototypes, and the bytes of memory a property. Times are the least of some runs, of the look-ups alone where
these are told.
"""
from measure import least

FINDS = 1 << 21


def look_up(count, few):
    """The seconds of one look-up of `few` keys among `count`."""
    rounds = FINDS // few
    less, _ = least(["store", "keys", count, few, 0], 5)
    more, _ = least(["store", "keys", count, few, rounds], 5)
    return (more - less) / (rounds * few)


def main():
    print("| properties | ns a look-up of 16 keys | times that of 2^4 | ns a look-up of as many keys | times that of 2^4 |")
    print("|---|---|---|---|---|")
    first = None
    for power in (4, 8, 12, 16, 20):
        few, many = look_up(1 << power, 16), look_up(1 << power, 1 << power)
        first = first or (few, many)
        print(f"| 2^{power} | {few * 1e9:.0f} | {few / first[0]:.1f} | {many * 1e9:.0f} | {many / first[1]:.1f} |", flush=True)
    start, _ = least(["store", "keys", 0, 0, 0], 100)
    deletions = least(["store", "deletions", 65_536], 20)[0] - start
    print(f"\n65,536 properties put, found and deleted: {deletions * 1e3:.0f} ms")
    rounds = 50
    less, _ = least(["store", "prototypes", 100_000, 0], 10)
    more, _ = least(["store", "prototypes", 100_000, rounds], 10)
    # each round finds one key and misses another
    print(f"one look-up along 100,000 prototypes: {(more - less) / rounds / 2 * 1e3:.1f} ms")
    for count in (1 << 16, 1 << 20, 1_500_000):
        memory = least(["store", "keys", count, 0, 0], 3)[1] - least(["store", "keys", 0, 0, 0], 10)[1]
        print(f"{count} properties: {memory / count:.0f} bytes a property")


if __name__ == "__main__":
    main()
