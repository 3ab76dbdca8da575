"""The eras of a zone: the stretches of time in which it has one offset or follows one rule."""

from __future__ import annotations

import importlib.resources
import os
import pathlib
import weakref
import zoneinfo
from datetime import datetime, timedelta, timezone, tzinfo
from functools import lru_cache
from typing import Iterable, Iterator, Optional

from .errors import ZoneError
from .library import Era, Fire, History, Zone, history, parse_zone, read_history

EPOCH = datetime(1970, 1, 1, tzinfo=timezone.utc)
SECOND = timedelta(seconds=1)
BEFORE_ALL = -(1 << 63)


@lru_cache(maxsize=256)
def _fixed_history(offset: timedelta) -> History:
    """The era of a clock that stays at one offset."""
    return history([Era(BEFORE_ALL, _fixed(offset))])


def _fixed(offset: timedelta) -> Zone:
    """The zone with one offset."""
    seconds, rest = divmod(offset, SECOND)
    if rest:
        raise ZoneError(f"the offset {offset} has a part of a second")
    minutes, second = divmod(abs(seconds), 60)
    hour, minute = divmod(minutes, 60)
    sign = "-" if seconds > 0 else ""
    return parse_zone(f"AAA{sign}{hour}:{minute:02}:{second:02}".encode())


def _data_in_package(key: str) -> bytes:
    """The bytes of the zone's file in the package `tzdata`."""
    package, _, name = key.rpartition("/")
    folder = importlib.resources.files(".".join(["tzdata.zoneinfo", *package.split("/")]).rstrip("."))
    return folder.joinpath(name).read_bytes()


def _data_of(key: str) -> bytes:
    """The bytes of the zone's file, found as `zoneinfo` finds it."""
    paths = (os.path.join(folder, key) for folder in zoneinfo.TZPATH)
    # as `zoneinfo` has it: a folder that can't be searched has no such file, where `Path.is_file` raises an error
    path = next(filter(os.path.isfile, paths), None)
    try:
        return pathlib.Path(path).read_bytes() if path else _data_in_package(key)
    except (ImportError, OSError, ValueError) as error:
        raise ZoneError(f"no file for the zone {key} can be read") from error


# A zone that is read anew, as after an update of the files, is another object.
_ERAS: weakref.WeakKeyDictionary[zoneinfo.ZoneInfo, History] = weakref.WeakKeyDictionary()


# Some zones tell the offset of their winter where no time is given.
WINTER, SUMMER = datetime(2024, 1, 1), datetime(2024, 7, 1)
OTHER_ZONE = (
    "{!r} is neither a ZoneInfo nor a fixed offset: give the datetime such a zone first, as by "
    'moment.astimezone(zoneinfo.ZoneInfo("America/Chicago"))'
)


def _offset_of(zone: tzinfo) -> Optional[timedelta]:
    """The offset of a zone that has one alone, as those of other packages that mean UTC."""
    try:
        offset = zone.utcoffset(None)
        seasons = [zone.utcoffset(it.replace(tzinfo=zone)) for it in (WINTER, SUMMER)]
    except Exception:  # the zone is anyone's code
        return None
    return offset if seasons == [offset, offset] else None


def eras_of(zone: tzinfo) -> History:
    """The eras of a zone, in order and without a gap."""
    if isinstance(zone, zoneinfo.ZoneInfo):
        return _eras_of_file(zone)
    offset = zone.utcoffset(None) if isinstance(zone, timezone) else _offset_of(zone)
    if offset is None:
        raise ZoneError(OTHER_ZONE.format(zone))
    return _fixed_history(offset)


def _eras_of_file(zone: zoneinfo.ZoneInfo) -> History:
    """The eras of the file by which this zone was read."""
    eras = _ERAS.get(zone)
    if eras is None:
        if zone.key is None:
            raise ZoneError("the zone has no key, so its file isn't known")
        eras = _ERAS[zone] = read_history(_data_of(zone.key), zone.key)
    return eras


def shown(fire: Fire, zone: tzinfo) -> datetime:
    """What the clock of the zone shows at a fire."""
    [moment] = all_shown([fire], zone)
    return moment


def all_shown(fires: Iterable[Fire], zone: tzinfo) -> Iterator[datetime]:
    """What the clock of the zone shows at each fire."""
    told: Optional[int] = None
    wanted: Optional[timedelta] = None
    show = datetime.fromtimestamp
    for instant, offset in fires:
        moment = show(instant, zone)
        if offset != told:
            told, wanted = offset, timedelta(seconds=offset)
        if moment.utcoffset() != wanted:
            raise ZoneError(f"the file of {zone} isn't what this ZoneInfo was read from")
        yield moment
