"""The length of the input and of a number, and how many records fit."""

from large.case import Bytes, Session

LIMIT = 65536


def logouts(tens, elevens):
    """Logouts of users without rows, 10 or 11 bytes each with their CRLF.

    Each is an event, accepted with 0.
    """
    csv = b"logout,0\r\n" * tens + b"logout,10\r\n" * elevens
    want = b"0,0\r\n" * (tens + elevens)
    return csv, want


def limit_bytes():
    # 6,547 * 10 + 6 * 11 = 65,536: at the limit, so all 6,553 are answered.
    csv, want = logouts(6547, 6)
    assert len(csv) == LIMIT
    Bytes("limit-bytes-65536", csv, want)

    # One byte more, whatever it is: too long, so `bad,0` and nothing else.
    Bytes("limit-bytes-65537-more", csv + b"l", b"bad,0\r\n")

    # 6,545 * 10 + 8 * 11 = 65,538, less the last CRLF: at the limit.
    csv, want = logouts(6545, 8)
    csv = csv[:-2]
    assert len(csv) == LIMIT
    Bytes("limit-bytes-65536-open", csv, want)

    # 6,546 * 10 + 7 * 11 = 65,537: the last LF is one byte too many.
    csv, _ = logouts(6546, 7)
    assert len(csv) == LIMIT + 1
    Bytes("limit-bytes-65537", csv, b"bad,0\r\n")

    # One record with an unknown word: judged as text at the limit, by its
    # length alone past it.
    Bytes("limit-bytes-65536-x", b"x" * LIMIT, b"bad,1\r\n")
    Bytes("limit-bytes-65537-x", b"x" * (LIMIT + 1), b"bad,0\r\n")


def limit_record():
    # The shortest record that is not bad is `env,0,0`, 9 bytes with its CRLF.
    # 7,281 * 9 = 65,529, so 7 bytes are left for one more: no record has a
    # higher number. The fact is false from the start, so nothing is lost.
    good = 7281
    csv = b"env,0,0\r\n" * good + b"x" * 7
    assert len(csv) == LIMIT
    Bytes("limit-record-7282", csv, b"0,0\r\n" * good + b"bad,7282\r\n")


def bad_number_5000_digits():
    # Larger than 65,535, so it is no number: record 3 is bad.
    s = Session("bad-number-5000-digits")
    s.put("rule", 0, 0)
    s.ask("activate", 1, 0, want=(0, 0))
    s.bad("logout", "1" * 5000)
    s.put("logout", 1)


BUILDS = (limit_bytes, limit_record, bad_number_5000_digits)
