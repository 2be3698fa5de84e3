"""A session, with the answer that is wanted for each of its events."""

CASES = {}


class Session:
    """Records, each with the answer that is wanted for it.

    Policy records have no answer. A record is joined with commas and ends in
    CRLF; so does an answer.
    """

    def __init__(self, name):
        assert name not in CASES
        CASES[name] = self
        self.records = []
        self.answers = []

    def put(self, *fields):
        """A record without an answer."""
        self.records.append(",".join(str(field) for field in fields))

    def ask(self, *fields, want):
        """An event and its answer, as (code, second)."""
        self.put(*fields)
        self.answers.append("%d,%d" % want)

    def bad(self, *fields):
        """A record that is bad: its number is its place, from 1."""
        self.put(*fields)
        self.answers.append("bad,%d" % len(self.records))

    def csv(self):
        return "".join(record + "\r\n" for record in self.records).encode()

    def want(self):
        return "".join(answer + "\r\n" for answer in self.answers).encode()


class Bytes:
    """A session given as bytes."""

    def __init__(self, name, csv, want):
        assert name not in CASES
        CASES[name] = self
        self.csv = lambda: csv
        self.want = lambda: want
