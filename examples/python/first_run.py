"""The first three items of an expression, and why another is refused.

The argument is the archive as a shared object.
"""

import sys

from cron import items_after, load, parse, text_of, zone_of


def main():
    library = load(sys.argv[1])
    start = 1704067200  # 2024-01-01T00:00:00Z
    items = items_after(library, parse(library, "0 0,30 9 * * 2"), zone_of(library, "UTC"), start)
    for _, item in zip(range(3), items):
        print(text_of(library, item))
    try:
        parse(library, "0 0 25 * * *")
    except ValueError as refused:
        print(f"error: {refused}")


main()
