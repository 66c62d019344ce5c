"""An auditor of nested STAR: `auditor.py audit` checks certificates without a decoder.

Written from docs/FORMATS.md, chapters "Certificates" and "What `audit` prints".
"""

from certificates import read_certificate
from commands import Verb, main
from shared import (
    TOO_MANY,
    Context,
    Fault,
    Refusal,
    agreeing,
    key_of,
    open_box,
    text_of_lines,
    text_of_step,
)

MOST_BYTES = 536_870_912


def verdict(certificate):
    """The name of the verdict, the value and how many points agree."""
    c = certificate
    if len(c.points) < c.threshold:
        return "Few", b"", 0
    key = key_of([polynomial[0] for polynomial in c.polynomials])
    if key is None:
        return "Key", b"", 0
    agree = agreeing(c.polynomials, c.points)
    if 2 * agree < len(c.points) + c.threshold:
        return "Short", b"", agree
    value = open_box(c.version, key, c.box)
    context = Context(c.version, c.parent, c.epoch, c.level, c.threshold, value)
    if (context.key, context.tag, context.check) != (key, c.tag, c.check):
        return "Value", value, agree
    return "Yes", value, agree


def line_of(number, certificate):
    """The line of a certificate."""
    name, value, agree = verdict(certificate)
    if name != "Yes":
        return f"{number} no {name}"
    step = text_of_step(value, certificate.threshold, certificate.version)
    points = len(certificate.points)
    return f"{number} yes {step} level={certificate.level} points={points} agree={agree}"


def read_certificates(data):
    """The certificates that stand one behind the other."""
    if len(data) > MOST_BYTES:
        raise TOO_MANY
    certificates = []
    place = 0
    while place < len(data):
        try:
            certificate, place = read_certificate(data, place)
        except Fault as fault:
            line = f"bad cert {len(certificates)}: {fault.kind} {fault.place}"
            raise Refusal(12, line) from fault
        certificates.append(certificate)
    return certificates


def audit(data):
    """What `audit` prints."""
    lines = [line_of(number, c) for number, c in enumerate(read_certificates(data))]
    yes = sum(line.split(" ")[1] == "yes" for line in lines)
    lines.append(f"certs={len(lines)} yes={yes}")
    return text_of_lines(lines)


VERBS = {"audit": Verb(audit, {})}

if __name__ == "__main__":
    main(VERBS)
