"""The calls of the shared library."""

from __future__ import annotations

import ctypes
import pathlib
import struct
from functools import partial
from typing import Any, Callable, Dict, FrozenSet, Iterable, Iterator, List, Optional, Tuple

from .errors import CronError, TextError, ZoneError

OK, NO_ITEM, REFUSED, NOT_UTF8, BAD_ZONE, NOT_AN_ITEM, MORE, NO_MEMORY = 0, 1, 2, 3, 4, 6, 8, 9
LEAST_INSTANT, GREATEST_INSTANT = -377705023201, 253402207200


class Sets(ctypes.Structure):
    """Seven sets of numbers as words of bits."""

    _fields_ = [("words", ctypes.c_uint64 * 16)]


class Item(ctypes.Structure):
    """An instant in seconds since 1970, how far the clock is ahead of UTC, and by how much what it shows lies past the match."""

    _fields_ = [("instant", ctypes.c_int64), ("offset", ctypes.c_int32), ("reserved", ctypes.c_uint32)]


class Zone(ctypes.Structure):
    """A zone: UTC, one offset, or a rule."""

    _fields_ = [("words", ctypes.c_uint32 * 16)]


class Era(ctypes.Structure):
    """From `starts` on, in seconds since 1970, the clock is that of the zone, until the next era starts."""

    _fields_ = [("starts", ctypes.c_int64), ("zone", Zone)]


# Where a set stands among the words of all sets: its first word, how many words it has, and the number of its first bit.
Place = Tuple[int, int, int]
SECONDS: Place = (0, 1, 0)
MINUTES: Place = (1, 1, 0)
HOURS: Place = (2, 1, 0)
DAYS_OF_MONTH: Place = (3, 1, 1)
LAST_DAY = 4
MONTHS: Place = (5, 1, 1)
DAYS_OF_WEEK: Place = (6, 1, 1)
YEARS: Place = (7, 3, 1970)
WORD_BITS = 64

Fire = Tuple[int, int]  # an instant in seconds since 1970, and how far the clock is ahead of UTC then

# The same of a due fire, and by how many seconds what the clock shows lies past the match.
Due = Tuple[int, int, int]

# One or more schedules that fire as one.
Schedules = ctypes.Array[Sets]

# The arguments for eras, and how many they are.
Eras = Tuple["ctypes.Array[Era]", int]

# The bytes that hold the canonical text of any schedule, as `CRON_C_SCHEDULE_TEXT` has it.
SCHEDULE_TEXT = 1245

# As many schedules as an expression of Quartz may be, as `CRON_C_QUARTZ_SCHEDULES` has it.
QUARTZ_SCHEDULES = 12

# An item as its bytes stand in an array, and how many a first and a later page of fires have room for.
ITEM = struct.Struct("=qi4x")
DUE_ITEM = struct.Struct("=qiI")
FIRST_PAGE, PAGE = 16, 1024


class History:
    """Eras in the order of their starts, as the calls take them."""

    __slots__ = ("_eras",)

    def __init__(self, eras: Iterable[Era]) -> None:
        given = list(eras)
        self._eras = (Era * len(given))(*given)

    def __len__(self) -> int:
        return len(self._eras)

    def __getitem__(self, place: int) -> Era:
        return self._eras[place]

    def all(self) -> Eras:
        """All of them, as arguments. A call finds the era of an instant by halving."""
        return self._eras, len(self)


FIVE_FIELDS = "five fields: a crontab line, which Schedule.crontab reads. Here seconds stand before the minutes, and Sunday is 1."

# The first version that has every call below, and the first whose structs may be others.
LEAST_VERSION, OTHER_VERSION = 10_700, 20_000


def _numbers(version: int) -> str:
    """The three numbers of a version."""
    return f"{version // 10_000}.{version // 100 % 100}.{version % 100}"


def _check_version(library: ctypes.CDLL) -> None:
    """ImportError where a call may be missing, or may read and write other structs than those here."""
    library.cron_c_version.argtypes, library.cron_c_version.restype = [], ctypes.c_uint32
    version = library.cron_c_version()
    if not LEAST_VERSION <= version < OTHER_VERSION:
        needed = f"{_numbers(LEAST_VERSION)} or later, before {_numbers(OTHER_VERSION)}"
        raise ImportError(f"libcron_c.so is of version {_numbers(version)}, and this package needs {needed}")


def _load() -> ctypes.CDLL:
    library = ctypes.CDLL(str(pathlib.Path(__file__).with_name("libcron_c.so")))
    _check_version(library)
    size, pointer, instant = ctypes.c_size_t, ctypes.POINTER, ctypes.c_int64
    text: List[Any] = [ctypes.c_char_p, size]
    library.cron_c_parse.argtypes = text + [pointer(Sets)] + text + [pointer(size)]
    for call in ("crontab_parse", "quartz_parse"):
        getattr(library, f"cron_c_{call}").argtypes = text + [pointer(Sets), size, pointer(size)] + text + [pointer(size)]
    library.cron_c_crontab_line_parse.argtypes = (
        text + [ctypes.c_uint32, pointer(Sets), size, pointer(size)] + text + [pointer(size)]
    )
    library.cron_c_canonical.argtypes = [pointer(Sets)] + text + [pointer(size)]
    library.cron_c_zone_parse.argtypes = text + [pointer(Zone)]
    page: List[Any] = [instant, pointer(Item), size, pointer(size)]
    subjects: Dict[str, List[Any]] = {"history": [pointer(Sets)], "union": [pointer(Sets), size]}
    asked: Dict[str, List[Any]] = {
        **dict.fromkeys(("fire_after", "fire_by", "due_after", "due_by"), [instant, pointer(Item)]),
        **dict.fromkeys(("fires_between", "dues_between"), [instant] + page),
        **dict.fromkeys(("fires_past", "dues_past"), [pointer(Item)] + page),
    }
    for call, arguments in asked.items():
        for name, schedules in subjects.items():
            getattr(library, f"cron_c_{name}_{call}").argtypes = [*schedules, pointer(Era), size, *arguments]
            getattr(library, f"cron_c_{name}_{call}").restype = ctypes.c_uint32
    library.cron_c_history_read.argtypes = [ctypes.c_char_p, size, pointer(Era), size, pointer(size)]
    library.cron_c_history_check.argtypes = [pointer(Era), size]
    for reader in ("parse", "crontab_parse", "crontab_line_parse", "quartz_parse", "zone_parse"):
        getattr(library, f"cron_c_{reader}").restype = ctypes.c_uint32
    for call in ("canonical", "history_read", "history_check"):
        getattr(library, f"cron_c_{call}").restype = ctypes.c_uint32
    return library


_LIBRARY = _load()


def version() -> str:
    """The version of the library."""
    return _numbers(_LIBRARY.cron_c_version())


def _message_room(length: int) -> int:
    """The bytes of the longest message about a text of so many bytes, as `CRON_C_MESSAGE` has it."""
    return 2 * length + 100


def _with_note(error: TextError, text: str) -> TextError:
    """The error, and with a line of a crontab a note beside it, from Python 3.11 on."""
    if len(text.split()) == 5 and hasattr(error, "add_note"):
        error.add_note(FIVE_FIELDS)
    return error


def _read(call: Callable[..., Any], text: str) -> bool:
    """Calls with a text, and with room for the message that refuses it. Returns whether it has a meaning that fires."""
    told, needed = text.encode("utf-8", "surrogatepass"), ctypes.c_size_t()
    message = ctypes.create_string_buffer(_message_room(len(told)))
    status: int = call(told, message, needed)
    if status == REFUSED:
        raise TextError(message.raw[: needed.value].decode())
    if status == NOT_UTF8:
        raise TextError("The text isn't UTF-8.")
    if status not in (OK, NO_ITEM):
        raise CronError(f"status {status}")
    return status == OK


def parse(text: str) -> Schedules:
    """The schedule that a text means."""
    schedules = (Sets * 1)()
    try:
        _read(lambda told, message, needed: _LIBRARY.cron_c_parse(told, len(told), schedules, message, len(message), needed), text)
    except TextError as error:
        raise _with_note(error, text)
    return schedules


def _parse_several(call: Callable[..., int], most: int, text: str) -> Schedules:
    """The schedules that an expression means, of which one suffices."""
    schedules, count = (Sets * most)(), ctypes.c_size_t()
    _read(lambda told, message, needed: call(told, len(told), schedules, most, count, message, len(message), needed), text)
    return (Sets * count.value)(*schedules[: count.value])


def parse_crontab(text: str) -> Schedules:
    """The schedules that an expression of a crontab means: one, or two, or none."""
    return _parse_several(_LIBRARY.cron_c_crontab_parse, 2, text)


def parse_quartz(text: str) -> Schedules:
    """The schedules that an expression of Quartz means, of which some may never fire."""
    return _parse_several(_LIBRARY.cron_c_quartz_parse, QUARTZ_SCHEDULES, text)


def parse_crontab_line(line: str, is_system: bool) -> Optional[Schedules]:
    """The schedules of a crontab's line; None where it is no entry."""
    schedules, count = (Sets * 2)(), ctypes.c_size_t()
    is_entry = _read(
        lambda told, message, needed: _LIBRARY.cron_c_crontab_line_parse(
            told, len(told), is_system, schedules, len(schedules), count, message, len(message), needed
        ),
        line,
    )
    return (Sets * count.value)(*schedules[: count.value]) if is_entry else None


def canonical(sets: Sets) -> Optional[str]:
    """The canonical text of one schedule; None where it never fires, since a set is empty."""
    text, needed = ctypes.create_string_buffer(SCHEDULE_TEXT), ctypes.c_size_t()
    status = _LIBRARY.cron_c_canonical(sets, text, len(text), needed)
    if status == NOT_AN_ITEM:
        return None
    if status != OK:
        raise CronError(f"status {status}")
    return text.raw[: needed.value].decode()


def set_of(schedules: Schedules, place: Place) -> FrozenSet[int]:
    """The numbers of the set at a place, in any of the schedules."""
    word, count, first = place
    bits = 0
    for sets in schedules:
        bits |= sum(sets.words[word + it] << (WORD_BITS * it) for it in range(count))
    return frozenset(first + it for it in range(bits.bit_length()) if bits >> it & 1)


def has_last_day(schedules: Schedules) -> bool:
    """Whether the last day of each month is one of the days."""
    return any(sets.words[LAST_DAY] for sets in schedules)


def parse_zone(text: bytes) -> Zone:
    """The zone of a text: `UTC`, or a rule as POSIX has it."""
    zone = Zone()
    if _LIBRARY.cron_c_zone_parse(text, len(text), zone) != OK:
        raise ZoneError(f"no zone: {text!r}")
    return zone


def _found(status: int, item: Item) -> Optional[Fire]:
    if status == OK:
        return item.instant, item.offset
    if status == NO_ITEM:
        return None
    raise CronError(f"status {status}")


def _within(instant: int) -> int:
    return max(LEAST_INSTANT, min(GREATEST_INSTANT, instant))


def history(eras: Iterable[Era]) -> History:
    """Eras in the order of their starts, checked once: later calls look only at those that they come to."""
    made = History(eras)
    if _LIBRARY.cron_c_history_check(*made.all()) != OK:
        raise ZoneError("the eras are of no zone, or in no order")
    return made


def read_history(data: bytes, key: str) -> History:
    """The eras of the compiled zone file of this key."""
    eras, count = (Era * 0)(), ctypes.c_size_t()
    status = _LIBRARY.cron_c_history_read(data, len(data), eras, len(eras), count)
    if status == MORE:
        eras = (Era * count.value)()
        status = _LIBRARY.cron_c_history_read(data, len(data), eras, len(eras), count)
    if status == BAD_ZONE:
        raise ZoneError(f"the file of the zone {key} is no zone file, or contradicts itself")
    if status == NO_MEMORY:
        raise MemoryError(f"no room for what the file of the zone {key} says")
    if status != OK:
        raise CronError(f"status {status}")
    return history(eras)


def _call(name: str, schedules: Schedules, eras: History) -> Callable[..., int]:
    """A call over a history: of one schedule, or of others as one."""
    if len(schedules) == 1:
        return partial(getattr(_LIBRARY, f"cron_c_history_{name}"), schedules, *eras.all())
    return partial(getattr(_LIBRARY, f"cron_c_union_{name}"), schedules, len(schedules), *eras.all())


def fire_after(schedules: Schedules, eras: History, instant: int) -> Optional[Fire]:
    """Of the fires after this instant the earliest."""
    item = Item()
    return _found(_call("fire_after", schedules, eras)(_within(instant), item), item)


def fire_by(schedules: Schedules, eras: History, instant: int) -> Optional[Fire]:
    """Of the fires up to this instant the latest."""
    item = Item()
    return _found(_call("fire_by", schedules, eras)(_within(instant), item), item)


def fires_at(schedules: Schedules, eras: History, instant: int) -> bool:
    """Whether there is a fire at this instant."""
    found = fire_by(schedules, eras, instant)
    return found is not None and found[0] == instant


def pages(schedules: Schedules, eras: History, start: int, end: int) -> Iterator[List[Fire]]:
    """The fires after one instant and up to and with another, in lists."""
    first, rest = (_call(name, schedules, eras) for name in ("fires_between", "fires_past"))
    return _pages(first, rest, ITEM, _within(start), end)


def due_pages(schedules: Schedules, eras: History, start: int, end: int) -> Iterator[List[Due]]:
    """The due fires after one instant and up to and with another, in lists."""
    first, rest = (_call(name, schedules, eras) for name in ("dues_between", "dues_past"))
    return _pages(first, rest, DUE_ITEM, _within(start), end)


def due_pages_past(schedules: Schedules, eras: History, due: Due, end: int) -> Iterator[List[Due]]:
    """The due fires past one and up to and with an instant, in lists."""
    rest = _call("dues_past", schedules, eras)
    return _pages(rest, rest, DUE_ITEM, Item(*due), end)


def _pages(
    first: Callable[..., int], rest: Callable[..., int], layout: struct.Struct, start: Any, end: int
) -> Iterator[List[Any]]:
    """What one call writes from the start on, and then another from the last item of each full page."""
    room, count, last = FIRST_PAGE, ctypes.c_size_t(), _within(end)
    items = (Item * room)()
    status = first(start, last, items, room, count)
    while status == MORE:
        page = _page(layout, items, room)
        yield page
        noted = Item.from_buffer_copy(items, (room - 1) * ctypes.sizeof(Item))
        if room != PAGE:
            room, items = PAGE, (Item * PAGE)()
        status = rest(noted, last, items, room, count)
    if status != OK:
        raise CronError(f"status {status}")
    yield _page(layout, items, count.value)


def _page(layout: struct.Struct, items: ctypes.Array[Item], count: int) -> List[Any]:
    """The first of the items as tuples."""
    return list(layout.iter_unpack(bytes(items)[: count * layout.size]))


def fires_before(schedules: Schedules, eras: History, start: int, end: int) -> Iterator[Fire]:
    """The fires up to one instant and from another on, the latest first."""
    found = fire_by(schedules, eras, start)
    while found is not None and found[0] >= end:
        yield found
        found = fire_by(schedules, eras, found[0] - 1)


def _found_due(status: int, item: Item) -> Optional[Due]:
    found = _found(status, item)
    return None if found is None else (*found, item.reserved)


def due_after(schedules: Schedules, eras: History, instant: int) -> Optional[Due]:
    """Of the due fires after this instant the first."""
    item = Item()
    return _found_due(_call("due_after", schedules, eras)(_within(instant), item), item)


def due_by(schedules: Schedules, eras: History, instant: int) -> Optional[Due]:
    """Of the due fires up to this instant the last."""
    item = Item()
    return _found_due(_call("due_by", schedules, eras)(_within(instant), item), item)


def dues_before(schedules: Schedules, eras: History, start: int, end: int) -> Iterator[Due]:
    """The due fires up to one instant and from another on, the last first."""
    found = due_by(schedules, eras, start)
    while found is not None and found[0] >= end:
        instant = found[0]
        together = [due for page in due_pages(schedules, eras, instant - 1, instant) for due in page]
        yield from reversed(together)
        found = due_by(schedules, eras, instant - 1)
