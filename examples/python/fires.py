"""What a scheduler asks for: the fires of a job where the clock goes back, and which was the last.

The argument is the archive as a shared object.
"""

import sys

from cron import found, load, parse, text_of, zone_of

def main():
    library = load(sys.argv[1])
    now = 1667649600  # 2022-11-05T12:00:00Z
    restarted = 1667779200  # 2022-11-07T00:00:00Z
    schedule = parse(library, "0 30 1 * * *")
    chicago = zone_of(library, "CST6CDT,M3.2.0,M11.1.0")
    for _ in range(3):
        item = found(library.cron_c_fire_after, schedule, chicago, now)
        if item is None:
            break
        print(text_of(library, item))  # sleep until `item.instant`, and run the job
        now = item.instant
    item = found(library.cron_c_fire_by, schedule, chicago, restarted)
    if item is not None:
        print(f"last: {text_of(library, item)}")


main()
