"""Times of records in words."""
import datetime


def shown(time):
    """A time in nanoseconds since 1970 as a date in UTC, or as seconds if it is past the years that a capture can say."""
    seconds, rest = divmod(time, 1_000_000_000)
    if seconds >= 1 << 32:
        return f"{seconds}.{rest:09} s"
    date = datetime.datetime.fromtimestamp(seconds, datetime.timezone.utc)
    return f"{date:%Y-%m-%d %H:%M:%S}.{rest:09} UTC"
