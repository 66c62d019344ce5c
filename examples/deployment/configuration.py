"""The configuration that page, collector and report share: under which terms the reports of each epoch are made and taken.

`terms` in the file ascend by epoch, and each entry holds from the first moment of its epoch to that of the next entry's. A change is a new entry
for an epoch that hasn't begun; the old ones stay, since kept reports were made under them. Reports made under others are refused and counted.
"""
import dataclasses
import json
import os

import frames
import weeks

MAX_LAYERS = {1: 8, 2: 16}
MAX_REPORTS = 131_072               # what one run of star_tool takes
MAX_A_BODY = 100
MAX_EPOCH = 2**32 - 1
HERE = os.path.dirname(os.path.abspath(__file__))


class ConfigurationFault(ValueError):
    """The file isn't a configuration, or changes what has begun: the message says what, and where."""


@dataclasses.dataclass(frozen=True)
class Terms:
    """What holds for the reports of an epoch."""

    from_epoch: int
    version: int
    layers: tuple                   # names of the layers, from the first
    thresholds: tuple               # as many as layers
    most_reports: int = MAX_REPORTS
    reports_a_body: int = MAX_A_BODY

    def as_json(self):
        """The entry of the file, in one spelling."""
        return json.dumps(dataclasses.asdict(self), sort_keys=True, ensure_ascii=False)

    @classmethod
    def from_json(cls, text):
        """The terms that `as_json` wrote."""
        return _terms(json.loads(text), "terms")


@dataclasses.dataclass(frozen=True)
class Configuration:
    """All terms, and how far a report may be ahead of its week and behind it, in seconds."""

    terms: tuple
    early: int
    late: int

    def of(self, epoch):
        """The terms of an epoch; None before the first."""
        begun = [terms for terms in self.terms if terms.from_epoch <= epoch]
        return begun[-1] if begun else None

    def taken(self, now):
        """The epochs whose reports are taken at this Unix time."""
        return range(weeks.epoch_at(now - self.late), weeks.epoch_at(now + self.early) + 1)

    def is_closed(self, epoch, now):
        """Whether no report of this epoch is taken any more."""
        return epoch < self.taken(now).start


def _expect(holds, place, wanted):
    if not holds:
        raise ConfigurationFault(f"{place}: {wanted}")


def _number(entry, name, place, least, most, default=None):
    value = entry.get(name, default)
    _expect(type(value) is int and least <= value <= most, f"{place}.{name}", f"a number from {least} to {most}")
    return value


def _list(entry, name, place, most):
    value = entry.get(name)
    _expect(isinstance(value, list) and 1 <= len(value) <= most, f"{place}.{name}", f"a list of 1 to {most} items")
    return value


def _refuse_unknown(entry, names, place):
    _expect(isinstance(entry, dict), place, "an object")
    for name in entry:
        _expect(name in names, f"{place}.{name}", "no such name")


def _terms(entry, place):
    """The terms of an entry of the file."""
    _refuse_unknown(entry, [field.name for field in dataclasses.fields(Terms)], place)
    version = _number(entry, "version", place, 1, 2)
    layers = _list(entry, "layers", place, MAX_LAYERS[version])
    _expect(all(isinstance(name, str) and name for name in layers), f"{place}.layers", "a list of names")
    thresholds = _list(entry, "thresholds", place, MAX_LAYERS[version])
    _expect(len(thresholds) == len(layers), f"{place}.thresholds", "as many as layers")
    most = frames.VERSIONS[version].threshold
    for at, threshold in enumerate(thresholds):
        _expect(type(threshold) is int and 2 <= threshold <= most, f"{place}.thresholds[{at}]", f"a number from 2 to {most}")
    return Terms(_number(entry, "from_epoch", place, 0, MAX_EPOCH), version, tuple(layers), tuple(thresholds),
                 _number(entry, "most_reports", place, 1, MAX_REPORTS, MAX_REPORTS),
                 _number(entry, "reports_a_body", place, 1, MAX_A_BODY, MAX_A_BODY))


def read(text):
    """The configuration of a file's text."""
    try:
        entry = json.loads(text)
    except ValueError as fault:
        raise ConfigurationFault(f"not JSON: {fault}") from fault
    _refuse_unknown(entry, ["early_seconds", "late_seconds", "terms"], "configuration")
    terms = tuple(_terms(one, f"terms[{at}]") for at, one in enumerate(_list(entry, "terms", "configuration", 10_000)))
    for at, (before, after) in enumerate(zip(terms, terms[1:])):
        _expect(before.from_epoch < after.from_epoch, f"terms[{at + 1}].from_epoch", "above that of the entry before")
    return Configuration(terms, _number(entry, "early_seconds", "configuration", 0, weeks.WEEK),
                         _number(entry, "late_seconds", "configuration", 0, 4 * weeks.WEEK))


def path():
    """The file that the environment names, or else the one in this module's folder."""
    return os.environ.get("STAR_CONFIGURATION", os.path.join(HERE, "configuration.json"))


def load(file_path=None):
    """The configuration of a file."""
    with open(file_path or path(), encoding="utf-8") as file:
        return read(file.read())


def refuse_changes(old, new, now):
    """Raises ConfigurationFault if the new configuration changes terms that have begun by now, or are about to: whose reports are taken."""
    begun = new.taken(now)[-1]
    for epoch in sorted({terms.from_epoch for terms in old.terms + new.terms} | {begun}):
        _expect(epoch > begun or old.of(epoch) == new.of(epoch), f"epoch {epoch}", "its terms have begun, and can't change any more")
