"""Tries the workers: each fire of each job is noted exactly once, while workers are killed and the server is restarted.

    python3 check.py                            starts a server of its own in a temporary folder, and four workers
    python3 check.py work FOLDER NAME BEGAN     is one of these workers
"""

from __future__ import annotations

import os
import pathlib
import pwd
import random
import shutil
import signal
import subprocess
import sys
import tempfile
import time
from contextlib import closing
from datetime import datetime, timezone
from glob import glob
from itertools import groupby
from typing import Any, Dict, Iterable, Iterator, List, NamedTuple, Set, Tuple
from zoneinfo import ZoneInfo

import psycopg2
from psycopg2.extras import execute_values

from cron_c import Schedule
from workers import Fire, Worker

HERE = pathlib.Path(__file__).resolve().parent
WORKERS, JOBS, KILLS = 4, 2_000, 30
BATCH, PAUSE = 50, 0.02

# The time of the made-up clock, which has both of Chicago's transitions in it, and in how many seconds it passes.
START, END = datetime(2022, 3, 12, tzinfo=timezone.utc), datetime(2022, 11, 8, tzinfo=timezone.utc)
SECONDS = 10

ADD = "insert into jobs (id, expression, zone, rule, last) values %s"
ZONES = 5 * ["America/Chicago"] + ["America/New_York", "Europe/Berlin", "Australia/Lord_Howe", "UTC"]


class Job(NamedTuple):
    """What is run, and when."""

    id: int
    expression: str
    zone: str
    rule: str


def jobs() -> Iterator[Job]:
    """The jobs, of which most fire about the transitions."""
    dice = random.Random(9)
    for place in range(JOBS):
        minute, hour, step = dice.randrange(60), dice.randrange(4), dice.choice((10, 15, 20))
        expression = [
            f"{dice.randrange(60)} {minute} {hour} * Mar,Nov *",
            f"{minute} {hour} * * sun",
            f"{minute},{(minute + 31) % 60} 1-3 13,6 3,11 sun",
            f"*/{step} 1,2 6,13 mar,nov *",
            f"0 {minute} 0-5 12-14,5-7 Mar,Nov ?",
            f"*/{2 * step} 59 0-3 * Mar,Nov Sun",
            f"0 0/{step} 1-3 13 Mar,Apr,Nov *",
            f"{hour} */{step} 2 6,13,20 3,8,11 *",
            "@weekly",
            f"0 30 {hour} 1,15,L * Mon-Fri",
        ][place % 10]
        yield Job(place, expression, dice.choice(ZONES), dice.choice(("as_shown", "once")))


def ordinary_user() -> Dict[str, Any]:
    """How a process is begun as an ordinary user, which root becomes for that: the server takes no other."""
    if os.geteuid() != 0:
        return {}
    known = {it.pw_name: it for it in pwd.getpwall()}
    user = known.get("postgres") or known["nobody"]
    return {"user": user.pw_uid, "group": user.pw_gid, "extra_groups": []}


class Server:
    """A server of its own, whose files and socket are in a folder."""

    def __init__(self, folder: pathlib.Path) -> None:
        self._data, self._folder, self._user = str(folder / "data"), folder, ordinary_user()
        if self._user:
            os.chown(folder, self._user["user"], self._user["group"])
        self._call("initdb", "--auth=trust", "--username=cron", "--encoding=UTF8", "--locale=C")

    def _call(self, program: str, *arguments: str) -> None:
        words = [found(program), f"--pgdata={self._data}", *arguments]
        subprocess.run(words, cwd=self._folder, check=True, stdout=subprocess.DEVNULL, **self._user)

    def start(self) -> None:
        options = f"-k {self._folder} -c listen_addresses="
        self._call("pg_ctl", "--wait", f"--log={self._folder}/log", f"--options={options}", "start")

    def stop(self, mode: str) -> None:
        self._call("pg_ctl", "--wait", f"--mode={mode}", "stop")


def found(program: str) -> str:
    """The path of a program of the server, which Debian doesn't put on the PATH."""
    path = shutil.which(program) or next(iter(sorted(glob(f"/usr/lib/postgresql/*/bin/{program}"), reverse=True)), None)
    return path or sys.exit(f"no {program} is here: it is PostgreSQL's")


def connect(folder: pathlib.Path) -> Any:
    return psycopg2.connect(host=str(folder), user="cron", dbname="postgres", options="-c timezone=UTC")


def ask(folder: pathlib.Path, question: str) -> List[Tuple[Any, ...]]:
    with closing(connect(folder)) as database, database.cursor() as cursor:
        cursor.execute(question)
        return cursor.fetchall()


def made_up_clock(began: float) -> datetime:
    """What the clock shows that began to run from START at a second of the machine's, and stands at END."""
    return min(END, START + (time.time() - began) / SECONDS * (END - START))


def work(folder: pathlib.Path, name: str, began: float) -> None:
    """One worker. What its jobs do is a line of a file each, and so no part of the database."""
    with open(folder / f"{name}.done", "a", buffering=1) as done:

        def deed(cursor: Any, fire: Fire) -> None:
            done.write(f"{fire.job} {fire.moment.timestamp():.0f} {fire.place}\n")

        worker = Worker(lambda: connect(folder), lambda: made_up_clock(began), deed, BATCH)
        signal.signal(signal.SIGTERM, worker.stop)
        worker.run(PAUSE)
    print(worker.seconds, worker.seconds - worker.deed_seconds)


class Team:
    """The workers, each in a process of its own. Any of them can be killed, and another one comes in its place."""

    def __init__(self, folder: pathlib.Path, began: float) -> None:
        self._folder, self._began, self._count = folder, began, 0
        self._processes = [self._begin() for _ in range(WORKERS)]

    def __enter__(self) -> Team:
        return self

    def __exit__(self, *_: Any) -> None:
        for process in self._processes:
            process.kill()
            process.wait()

    def _begin(self) -> subprocess.Popen[str]:
        self._count += 1
        words = [sys.executable, __file__, "work", str(self._folder), f"worker-{self._count}", str(self._began)]
        return subprocess.Popen(words, stdout=subprocess.PIPE, text=True)

    def check(self) -> None:
        """Ends the run where a worker ended by itself."""
        for process in self._processes:
            if process.poll() is not None:
                sys.exit(f"a worker ended with status {process.returncode}")

    def kill(self, place: int) -> None:
        self._processes[place].kill()
        self._processes[place].communicate()
        self._processes[place] = self._begin()

    def stop(self) -> List[List[float]]:
        """Ends them, and returns how many seconds each was at work, and in how many of these the database was."""
        for process in self._processes:
            process.terminate()
        told = [process.communicate()[0].split() for process in self._processes]
        return [[float(it) for it in words] for words in told if words]  # one that has just begun tells nothing


def is_due(folder: pathlib.Path) -> bool:
    """Whether a job has a fire to run until the clock stands."""
    return bool(ask(folder, f"select 1 from jobs where due <= '{END.isoformat()}' limit 1"))


def run(folder: pathlib.Path, server: Server) -> str:
    """Runs all fires, kills a worker each half second until there were enough, and restarts the server in the middle. Returns
    what it took."""
    dice, began, killed, restarted = random.Random(5), time.time(), 0, False
    with Team(folder, began) as team:
        while is_due(folder):
            time.sleep(0.5)
            team.check()
            if killed < KILLS:
                team.kill(dice.randrange(WORKERS))
                killed += 1
            if not restarted and made_up_clock(began) > START + (END - START) / 2:
                server.stop("immediate")
                server.start()
                restarted = True
        seconds, told = time.time() - began, team.stop()
    if not restarted:
        sys.exit("the server wasn't restarted")
    busy, of_database = (sum(it) for it in zip(*told))
    [[count]] = ask(folder, "select count(*) from fires")
    return (
        f"{count / seconds:.0f} fires a second by {WORKERS} workers, and {of_database / busy:.0%} of their work was the database's, "
        f"while {killed} workers were killed, and the server once"
    )


Note = Tuple[int, int, int]


def schedule_of(expression: str) -> Schedule:
    """The schedule of six fields, or of a crontab's five or its nickname."""
    return Schedule.crontab(expression) if len(expression.split()) <= 5 else Schedule(expression)


def placed(moments: Iterable[datetime]) -> Iterator[Tuple[int, int]]:
    """Moments in order, each with its place among those that are the same."""
    for moment, same in groupby(int(it.timestamp()) for it in moments):
        yield from ((moment, place) for place, _ in enumerate(same, 1))


def expected(job: Job) -> Set[Note]:
    """The fires of a job by one list of the library for Python."""
    start = START.astimezone(ZoneInfo(job.zone))
    moments = schedule_of(job.expression).fires(start, END, clock_changes=job.rule)
    return {(job.id, *it) for it in placed(moments)}


def compare(folder: pathlib.Path) -> str:
    """Holds the notes, and what was done, against the lists. Returns how many fires there were."""
    wanted = set().union(*map(expected, jobs()))
    noted = ask(folder, "select job, extract(epoch from moment)::bigint, place from fires")
    lines = [line.split() for path in folder.glob("*.done") for line in path.read_text().splitlines()]
    done = [(int(job), int(moment), int(place)) for job, moment, place in lines]
    missing, other, undone = wanted - set(noted), set(noted) - wanted, wanted - set(done)
    if len(noted) != len(set(noted)) or missing or other or undone:
        sys.exit(f"{len(noted)} notes: {len(missing)} are missing, {len(other)} are of no fire, {len(undone)} weren't run")
    again = len(done) - len(set(done))
    return f"{len(noted)} fires of {JOBS} jobs are noted exactly once, and {again} were run again before their note"


def main() -> None:
    signal.signal(signal.SIGTERM, lambda *_: sys.exit(1))  # so that the server is stopped then too
    with tempfile.TemporaryDirectory() as room:
        folder = pathlib.Path(room)
        server = Server(folder)
        server.start()
        try:
            with closing(connect(folder)) as database, database.cursor() as cursor:
                cursor.execute((HERE / "schema.sql").read_text())
                execute_values(cursor, ADD, [(*job, START) for job in jobs()])
                database.commit()
            figures = run(folder, server)
            print(compare(folder))
            print(figures)
        finally:
            server.stop("fast")


if __name__ == "__main__":
    if sys.argv[1:2] == ["work"]:
        signal.alarm(300)  # where what began this worker was killed
        work(pathlib.Path(sys.argv[2]), sys.argv[3], float(sys.argv[4]))
    else:
        main()
