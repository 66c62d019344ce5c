"""Makes the report of each line of standard input through the package star_client, which has to be on the path, as lines.c does."""
import sys

from star_client import FAULTS, Client, ClientError

STATUS = {fault: number for number, fault in FAULTS.items()}


def bytes_of(word):
    return b"" if word == "-" else bytes.fromhex(word)


def items(word):
    return [] if word == "-" else word.split(",")


def answer(client, line):
    version, epoch, number, seed, thresholds, values, extra = line.split(" ")
    content = [bytes.fromhex(v) for v in items(values)], [int(k) for k in items(thresholds)]
    more = {"version": int(version), "extra": bytes_of(extra)}
    try:
        report = client.report(*content, int(epoch), seed=bytes_of(seed), client=int(number), **more)
        record = client.record(*content, int(epoch), seed=bytes_of(seed), client=int(number), **more)
    except ClientError as fault:
        return "status %d" % STATUS[type(fault)]
    if client.length(*content, **more) != len(report) or record != len(report).to_bytes(4, "big") + report:
        return "length or record differ"
    return report.hex()


def main():
    client = Client()
    for line in sys.stdin:
        print(answer(client, line.rstrip("\n")))


main()
