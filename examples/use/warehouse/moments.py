"""Moments of stamps, for load: the device's local time in a zone, in which an hour comes twice where clocks are set back."""
import datetime
import functools
import re
import zoneinfo

MOMENT = "%Y-%m-%dT%H:%M:%S.%f%z"
HOUR, MINUTE = datetime.timedelta(hours=1), datetime.timedelta(minutes=1)


def zone_of(text):
    """A zone by its name, or by its offset from UTC; None, if there is no such zone."""
    if offset := re.fullmatch("([+-])([01][0-9]):([0-5][0-9])", text):
        return datetime.timezone(int(offset[1] + "1") * (int(offset[2]) * HOUR + int(offset[3]) * MINUTE))
    try:
        return zoneinfo.ZoneInfo(text)
    except (KeyError, ValueError, OSError):
        return None


def offsets(zone, local):
    """The offset from UTC at a local time; where clocks were set back that of the first and that of the second time."""
    both = [local.replace(tzinfo=zone, fold=fold).utcoffset() // MINUTE for fold in (0, 1)]
    return tuple("%s%02d:%02d" % ("+-"[at < 0], abs(at) // 60, abs(at) % 60) for at in both[:1 + (both[0] > both[1])])


def hours_in(zone):
    """A function of an hour, as `2024-05-06T07`: its offset from UTC in a zone; those of each of its minutes where there
    are several; or None, if it is no hour."""

    @functools.lru_cache(maxsize=1 << 17)
    def of(hour):
        try:
            begin = datetime.datetime.strptime(hour, "%Y-%m-%dT%H")
        except ValueError:
            return None
        minutes = [offsets(zone, begin + minute * MINUTE) for minute in (0, 59)]
        if len({*minutes}) == len(minutes[0]) == 1:
            return minutes[0][0]
        return [offsets(zone, begin + minute * MINUTE) for minute in range(60)]

    return of


@functools.lru_cache(maxsize=1 << 16)
def within_hour(rest):
    """Minute, second and hundredths, as `:08:09.10`; of an unspecified hundredth the second itself. Else None."""
    return rest.replace("*", "00") if re.fullmatch(r":[0-5][0-9]:[0-5][0-9]\.([0-9]{2}|\*)", rest) else None


class Moments:
    """Makes moments of the stamps of a log's records by rising numbers, behind two records with these moments. Where
    clocks were set back a stamp has two, an hour apart, and the number decides."""

    def __init__(self, hours, before=None, newest=None):
        self.hours, self.before, self.newest = hours, before, newest

    def of(self, stamp):
        """None of a stamp that is no moment, as where a part of it is unspecified."""
        hour, rest = self.hours(stamp[:13]), within_hour(stamp[13:])
        if not hour or not rest:
            return None
        moment = f"{stamp[:13]}{rest}{hour}" if hour.__class__ is str else self.chosen(stamp[:13] + rest, hour[int(rest[1:3])])
        self.before, self.newest = self.newest, moment
        return moment

    def chosen(self, local, offsets):
        """The first moment that isn't before the record before it. One with the stamp of that is the second moment, where
        records come half an hour apart or more."""
        first, second = (datetime.datetime.strptime(local + offset, MOMENT) for offset in (offsets[0], offsets[-1]))
        before, newest = (it and datetime.datetime.strptime(it, MOMENT) for it in (self.before, self.newest))
        is_second = newest and (first < newest <= second + HOUR
                                or first == newest and before and newest - before >= HOUR / 2)
        return local + offsets[-1 if is_second else 0]
