"""What the door says of the body of a request: which of its records are reports of the configuration, and why the others are not."""
from collections import Counter

import frames
import weeks

MAX_BODY = 393_216                  # bytes: a hundred of the longest reports


class TooMany(ValueError):
    """The body has more records than a request may have."""


def refusal_of(frame, configuration, taken):
    """Why a frame is no report that is taken now, by one of `store.REFUSALS`; None if it is one."""
    terms = configuration.of(frame.epoch)
    if frame.level != 0:
        return "other_level"
    if frame.epoch not in taken or terms is None:
        return "other_epoch"
    if frame.version != terms.version:
        return "other_version"
    if frame.threshold != terms.thresholds[0]:
        return "other_threshold"
    if frame.body not in frames.body_lengths(terms.version, len(terms.layers)):
        return "other_layers"
    return None


def judged(body, configuration, now):
    """The reports of a body by epoch, and numbers of its refused records by reason. NoStream and TooMany refuse the body."""
    records = frames.records_of(body)
    terms = configuration.of(weeks.epoch_at(now))
    if terms and len(records) > terms.reports_a_body:
        raise TooMany(f"at most {terms.reports_a_body} reports a request")
    taken = configuration.taken(now)
    reports, refusals = {}, Counter()
    for record in records:
        try:
            frame = frames.read(record)
            reason = refusal_of(frame, configuration, taken)
        except frames.Fault:
            reason = "no_frame"
        if reason:
            refusals[reason] += 1
        else:
            reports.setdefault(frame.epoch, []).append(record)
    return reports, refusals
