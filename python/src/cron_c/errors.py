"""What can be wrong with what is given."""


class CronError(ValueError):
    """A text, a zone or an instant is refused."""


class TextError(CronError):
    """The text means nothing, and the message says why."""


class ZoneError(CronError):
    """The zone is no ZoneInfo and has transitions; or it has no key or no file that can be read, a file that is refused or isn't
    the one that it was read from, or an offset with a part of a second."""


class InstantError(CronError):
    """The instant has no zone."""
