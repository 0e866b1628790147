"""The same notices by the plain reading of the manual pages that the fuzzers use: reads request frames from standard
input and writes the outbox. `make bench` runs it beside `noticed batch`, and compares what both write."""
import sys

from tests.support.formats.sessions import batch
from tests.support.running import HOST


def main():
    sys.stdout.buffer.write(batch(HOST.encode(), sys.stdin.buffer.read()).outbox)


if __name__ == "__main__":
    main()
