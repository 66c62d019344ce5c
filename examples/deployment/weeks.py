"""Epochs by week: epoch E is the week that begins E weeks after Monday, 5 January 1970, 0:00 UTC."""
import datetime

DAY = 86_400
WEEK = 7 * DAY
FIRST_MONDAY = 4 * DAY


def epoch_at(seconds):
    """The epoch that contains this second of Unix time."""
    return int((seconds - FIRST_MONDAY) // WEEK)


def start_of(epoch):
    """The first second of an epoch, in Unix time."""
    return FIRST_MONDAY + epoch * WEEK


def name_of(epoch):
    """The week of an epoch, as people name it."""
    monday = datetime.datetime.fromtimestamp(start_of(epoch), datetime.timezone.utc).date()
    year, week, _ = monday.isocalendar()
    return f"week {week} of {year}, {monday.isoformat()} to {(monday + datetime.timedelta(6)).isoformat()}"
