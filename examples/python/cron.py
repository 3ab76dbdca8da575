"""The C interface over ctypes."""

import ctypes

OK, NO_ITEM, REFUSED = 0, 1, 2
VERSION = 1  # the first number of the header's version: a library with another may have other structs


class Schedule(ctypes.Structure):
    _fields_ = [("words", ctypes.c_uint64 * 16)]


class Item(ctypes.Structure):
    _fields_ = [("instant", ctypes.c_int64), ("offset", ctypes.c_int32), ("reserved", ctypes.c_uint32)]


class Zone(ctypes.Structure):
    _fields_ = [("words", ctypes.c_uint32 * 16)]


def check_version(library):
    """ImportError where the library's structs may be others than those above."""
    library.cron_c_version.argtypes, library.cron_c_version.restype = [], ctypes.c_uint32
    version = library.cron_c_version() // 10_000
    if version != VERSION:
        raise ImportError(f"the first number of the library's version is {version}, and {VERSION} is needed")


def load(path):
    """The library in a shared object."""
    library = ctypes.CDLL(path)
    check_version(library)
    size, pointer = ctypes.c_size_t, ctypes.POINTER
    text = [ctypes.c_char_p, size]
    library.cron_c_parse.argtypes = text + [pointer(Schedule)] + text + [pointer(size)]
    for name in ("cron_c_after", "cron_c_fire_after", "cron_c_fire_by"):
        call = getattr(library, name)
        call.argtypes = [pointer(Schedule), pointer(Zone), ctypes.c_int64, pointer(Item)]
        call.restype = ctypes.c_uint32
    library.cron_c_zone_parse.argtypes = text + [pointer(Zone)]
    library.cron_c_next.argtypes = [pointer(Schedule), pointer(Zone), pointer(Item)]
    library.cron_c_format.argtypes = [pointer(Item)] + text + [pointer(size)]
    for name in ("cron_c_parse", "cron_c_zone_parse", "cron_c_next", "cron_c_format"):
        getattr(library, name).restype = ctypes.c_uint32
    return library


def parse(library, text):
    """The schedule of a text. ValueError tells why it means nothing."""
    text = text.encode()
    schedule, needed = Schedule(), ctypes.c_size_t()
    message = ctypes.create_string_buffer(2 * len(text) + 100)
    status = library.cron_c_parse(text, len(text), schedule, message, len(message), needed)
    if status == REFUSED:
        raise ValueError(message.raw[: needed.value].decode())
    if status != OK:
        raise ValueError(f"status {status}")
    return schedule


def zone_of(library, text):
    """The zone of a text: UTC, or a rule as POSIX has it."""
    text, zone = text.encode(), Zone()
    if library.cron_c_zone_parse(text, len(text), zone) != OK:
        raise ValueError(f"no zone: {text}")
    return zone


def found(call, schedule, zone, instant):
    """What a call by an instant finds, or None."""
    item = Item()
    status = call(schedule, zone, instant, item)
    if status not in (OK, NO_ITEM):
        raise ValueError(f"status {status}")
    return item if status == OK else None


def items_after(library, schedule, zone, instant):
    """A walk that begins at an instant and goes along what the clock shows: in a repeated hour it may
    leave out later items, or answer the instant itself or one before it."""
    item = found(library.cron_c_after, schedule, zone, instant)
    status = OK if item else NO_ITEM
    while status == OK:
        yield Item(item.instant, item.offset)
        status = library.cron_c_next(schedule, zone, item)
    if status != NO_ITEM:
        raise ValueError(f"status {status}")


def text_of(library, item):
    """The text of an item. ValueError where it is none, as outside the years 1970 to 2100."""
    text, length = ctypes.create_string_buffer(32), ctypes.c_size_t()
    status = library.cron_c_format(item, text, len(text), length)
    if status != OK:
        raise ValueError(f"status {status}")
    return text.raw[: length.value].decode()
