"""Makes a report of a country and a city, and writes it to standard output as one record of a stream:
    python3 example.py Germany Berlin > reports.stream
"""
import sys

from star_client import Client, ClientError

try:
    sys.stdout.buffer.write(Client().record(sys.argv[1:], [20, 10], epoch=1))
except ClientError as fault:
    sys.exit("no report: %s" % fault)
