"""Workers over a table of jobs. Each claims what is due, notes it, moves the jobs on, and does it, in one transaction.

    python3 workers.py 'dbname=mine'    is one worker, whose jobs print a line; begin as many as you like
"""

from __future__ import annotations

import signal
import sys
import time
from contextlib import closing
from datetime import datetime, timezone
from typing import Any, Callable, List, NamedTuple

import psycopg2

# A job that was moved on is due by its next fire, since the server knows it by the column `last`.
CLAIM = """
    with claimed as (
        select id, expression, zone, rule, last, due from jobs where due <= %s order by due limit %s for update skip locked
    ), moved as (
        update jobs set last = claimed.due from claimed where jobs.id = claimed.id
    )
    insert into fires
    select id, moment, place from claimed, fires(expression, last, due, zone, rule) with ordinality as it (moment, place)
    returning job, moment, place
"""


class Fire(NamedTuple):
    """What is run, and when: of the fires that share their moment the first is 1."""

    job: int
    moment: datetime
    place: int


# What a job does at a fire. It may use the cursor: what it does in the database counts with the note.
Deed = Callable[[Any, Fire], None]


def is_broken(error: psycopg2.Error) -> bool:
    """Whether this tells of the connection, and not of what was asked: psycopg2 has three errors for that."""
    return isinstance(error, (psycopg2.OperationalError, psycopg2.InterfaceError)) or type(error) is psycopg2.DatabaseError


class Worker:
    """One of many workers: how to connect, the clock, what the jobs do, and how much of its time was the database's."""

    def __init__(self, connect: Callable[[], Any], now: Callable[[], datetime], deed: Deed, batch: int = 1) -> None:
        self._connect, self._now, self._deed, self._batch = connect, now, deed, batch
        self.is_stopped = False
        self.seconds, self.deed_seconds = 0.0, 0.0

    def _do(self, cursor: Any, fires: List[Fire]) -> None:
        begun = time.perf_counter()
        for fire in fires:
            self._deed(cursor, fire)
        self.deed_seconds += time.perf_counter() - begun

    def run_due(self, database: Any) -> int:
        """Runs what is due first of some jobs that no other worker has locked, and returns how many fires there were."""
        begun = time.perf_counter()
        cursor = database.cursor()
        cursor.execute(CLAIM, (self._now(), self._batch))
        fires = [Fire(*row) for row in cursor.fetchall()]
        self._do(cursor, fires)
        database.commit()
        self.seconds += time.perf_counter() - begun
        return len(fires)

    def run(self, pause: float) -> None:
        """Runs what comes due until it is stopped, and connects anew where a connection breaks. Then the jobs without a note
        are due as before."""
        while not self.is_stopped:
            try:
                with closing(self._connect()) as database:
                    while not self.is_stopped:
                        self.run_due(database) or time.sleep(pause)
            except psycopg2.Error as error:
                if not is_broken(error):
                    raise
                time.sleep(pause)

    def stop(self, *_: Any) -> None:
        """Has the worker end after what it is at."""
        self.is_stopped = True


def main() -> None:
    """One worker over the clock of the machine."""

    def say(cursor: Any, fire: Fire) -> None:
        print(fire.job, fire.moment, flush=True)

    worker = Worker(lambda: psycopg2.connect(sys.argv[1]), lambda: datetime.now(timezone.utc), say)
    signal.signal(signal.SIGTERM, worker.stop)
    worker.run(pause=1)


if __name__ == "__main__":
    main()
