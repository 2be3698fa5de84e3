#!/usr/bin/env python3
"""Writes the large sessions of this folder, each with its wanted answers.

    make.py          writes NAME.csv and NAME.want for every case of large/
    make.py check    writes nothing; says whether the files here are those that
                     would be written, and whether every NAME.csv in the folder
                     has its NAME.want and its one row in INDEX.md, with the mark
                     of a large case exactly if it is one

No program is asked: each wanted answer follows from the outline, and the
comment beside it says how. The small sessions are files written by hand, and
this script leaves them alone.
"""

import pathlib
import sys

sys.dont_write_bytecode = True

from large import apart, edges, effective, length, limits  # noqa: E402
from large.case import CASES  # noqa: E402

HERE = pathlib.Path(__file__).resolve().parent
MARK = "\\*"  # of a large case, in INDEX.md


def index_rows():
    """First cells of the tables in INDEX.md that are headed `Case`."""
    cells = []
    in_cases = False
    for line in (HERE / "INDEX.md").read_text(encoding="utf-8").splitlines():
        if line.startswith("| Case |"):
            in_cases = True
        elif not line.startswith("|"):
            in_cases = False
        elif in_cases and not line.startswith("|---"):
            cells.append(line.split("|")[1].strip())
    return cells


def check():
    faults = []
    for name, case in CASES.items():
        for end, wanted in ((".csv", case.csv()), (".want", case.want())):
            path = HERE / (name + end)
            if not path.exists():
                faults.append(path.name + " is missing")
            elif path.read_bytes() != wanted:
                faults.append(path.name + " is not what make.py writes")
    rows = index_rows()
    inputs = {path.stem for path in HERE.glob("*.csv")}
    wants = {path.stem for path in HERE.glob("*.want")}
    for name in sorted(inputs ^ wants):
        faults.append(name + " has no .csv or no .want")
    wanted_rows = {name + MARK if name in CASES else name for name in inputs}
    for row in sorted(wanted_rows):
        if rows.count(row) != 1:
            faults.append("%s has %d rows in INDEX.md" % (row, rows.count(row)))
    for row in rows:
        if row not in wanted_rows:
            faults.append("%s is in INDEX.md and is no case" % row)
    for fault in faults:
        print(fault)
    print("%d sessions, %d faults" % (len(inputs), len(faults)))
    return 1 if faults else 0


def main():
    for module in (edges, apart, limits, length, effective):
        for build in module.BUILDS:
            build()
    for name, case in CASES.items():
        assert (len(case.csv()) > length.LIMIT) == (case.want() == b"bad,0\r\n"), name
    if sys.argv[1:] == ["check"]:
        return check()
    if sys.argv[1:]:
        print(__doc__)
        return 2
    for name, case in CASES.items():
        (HERE / (name + ".csv")).write_bytes(case.csv())
        (HERE / (name + ".want")).write_bytes(case.want())
    print("%d sessions written" % len(CASES))
    return 0


if __name__ == "__main__":
    sys.exit(main())
