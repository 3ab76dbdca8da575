"""Cron expressions in time zones, over a proved library.

>>> from datetime import datetime
>>> from zoneinfo import ZoneInfo
>>> from cron_c import Schedule
>>> noon = datetime(2022, 11, 5, 12, tzinfo=ZoneInfo("America/Chicago"))
>>> for moment in Schedule("0 30 1 * * *").between(noon, noon.replace(day=7)):
...     print(moment)
2022-11-06 01:30:00-05:00
2022-11-06 01:30:00-06:00
2022-11-07 01:30:00-06:00
"""

from .agenda import Agenda, AgendaFire
from .dues import DueFire
from .errors import CronError, InstantError, TextError, ZoneError
from .schedule import Schedule

__all__ = ["Agenda", "AgendaFire", "CronError", "DueFire", "InstantError", "Schedule", "TextError", "ZoneError"]
__version__ = "1.7.0"
