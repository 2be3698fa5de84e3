"""The limits: as many rows as each table holds, and one more."""

from large.case import Session


def limit_rules():
    # Rules 0 to 510 give role 0 to those in role 0: for one who is not, none of
    # them is satisfied. Rule 511, the 512th row, wants fact 0. So the lowest
    # satisfied rule is 511, and the role stands and falls with that fact.
    s = Session("limit-rules-512")
    for _ in range(511):
        s.put("rule", 0, 1, 0)
    s.put("rule", 0, 1, 384)
    s.ask("activate", 1, 0, want=(5, 0))
    s.ask("env", 0, 1, want=(0, 0))
    s.ask("activate", 1, 0, want=(0, 511))
    s.ask("activate", 1, 0, want=(4, 0))
    s.ask("env", 1, 1, want=(0, 0))
    s.ask("env", 0, 0, want=(0, 1))
    s.ask("logout", 1, want=(0, 0))

    # One more row is past the limit. It is record 513, and nothing follows.
    s = Session("bad-rule-513")
    for _ in range(512):
        s.put("rule", 0, 0)
    s.bad("rule", 0, 0)
    s.put("activate", 1, 0)

    # The limit counts rows, malformed ones (target 256) as well.
    s = Session("malformed-513")
    for _ in range(512):
        s.put("rule", 256, 0)
    s.bad("rule", 0, 0)
    s.put("activate", 1, 0)


def limit_kinds():
    # 128 rows; condition 383 names the last, kind 127.
    s = Session("limit-kinds-128")
    s.put("rule", 0, 0)
    s.put("rule", 1, 1, 383)
    for _ in range(128):
        s.put("kind", 0, 0)
    s.ask("activate", 1, 0, want=(0, 0))
    s.ask("appoint", 1, 2, 126, want=(0, 0))
    s.ask("activate", 2, 1, want=(5, 0))
    s.ask("appoint", 1, 2, 127, want=(0, 0))
    s.ask("activate", 2, 1, want=(0, 1))
    s.ask("revoke", 1, 2, 126, 1, want=(0, 0))
    s.ask("revoke", 1, 2, 127, 1, want=(0, 1))

    s = Session("bad-kind-129")
    for _ in range(128):
        s.put("kind", 0, 0)
    s.bad("kind", 0, 0)
    s.put("logout", 1)


def limit_rights():
    # 2,047 times the same right, and then, as the 2,048th row, another one.
    s = Session("limit-rights-2048")
    s.put("rule", 0, 0)
    s.put("rule", 255, 0)
    for _ in range(2047):
        s.put("right", 0, 0)
    s.put("right", 255, 1023)
    s.ask("activate", 1, 255, want=(0, 1))
    s.ask("invoke", 1, 1023, want=(0, 1))
    s.ask("invoke", 1, 0, want=(0, 0))
    s.ask("effective", 1, 255, 1023, want=(0, 1))
    s.ask("activate", 1, 0, want=(0, 0))
    s.ask("invoke", 1, 0, want=(0, 1))

    s = Session("bad-right-2049")
    for _ in range(2048):
        s.put("right", 0, 0)
    s.bad("right", 0, 0)
    s.put("logout", 1)


def limit_all_tables():
    # 512 rules, 128 kinds and 2,048 rights: 2,688 policy records, none past its
    # own table's limit. Rules 0 to 510 want the role they give; rule 511 does
    # not. The last right is the only one for role 7.
    s = Session("limit-all-tables")
    for _ in range(128):
        s.put("kind", 7, 1)
    for _ in range(511):
        s.put("rule", 7, 1, 7)
    for _ in range(2047):
        s.put("right", 0, 0)
    s.put("right", 7, 70)
    s.put("rule", 7, 0)
    s.ask("activate", 1, 7, want=(0, 511))
    s.ask("appoint", 1, 2, 127, want=(0, 0))
    s.ask("invoke", 1, 70, want=(0, 1))
    s.ask("invoke", 1, 0, want=(0, 0))
    # record 2,693: the 2,688 policy records and four events stand before it
    s.bad("right", 7, 71)


def limit_active():
    # Rule 0 is free; rule 1 gives role 1 while fact 0 is true. Users 0 to 127
    # in role 0 and 128 to 255 in role 1 are 256 rows.
    s = Session("limit-active")
    s.put("rule", 0, 0)
    s.put("rule", 1, 1, 384)
    s.ask("env", 0, 1, want=(0, 0))
    for u in range(128):
        s.ask("activate", u, 0, want=(0, 0))
    for u in range(128, 256):
        s.ask("activate", u, 1, want=(0, 1))
    # Full. User 256 satisfies both rules: 6. Those who have the role: 4. A role
    # without a rule: 5.
    s.ask("activate", 256, 0, want=(6, 0))
    s.ask("activate", 256, 1, want=(6, 0))
    s.ask("activate", 5, 0, want=(4, 0))
    s.ask("activate", 200, 1, want=(4, 0))
    s.ask("activate", 256, 2, want=(5, 0))
    # One row freed by logout serves once.
    s.ask("logout", 7, want=(0, 1))
    s.ask("activate", 256, 0, want=(0, 0))
    s.ask("activate", 7, 0, want=(6, 0))
    # The fact frees the 128 rows of role 1, and 128 new rows enter. Then the
    # table is full again, and role 1 can be had by nobody (5 before 6).
    s.ask("env", 0, 0, want=(0, 128))
    for u in range(300, 428):
        s.ask("activate", u, 0, want=(0, 0))
    s.ask("activate", 428, 0, want=(6, 0))
    s.ask("activate", 300, 1, want=(5, 0))
    s.ask("logout", 428, want=(0, 0))
    s.ask("logout", 300, want=(0, 1))
    s.ask("activate", 428, 0, want=(0, 0))


def full_certificates(s):
    """User 0, in role 0, appoints the users 0 to 255: 256 certificates."""
    s.put("rule", 0, 0)
    s.put("rule", 1, 1, 256)
    s.put("kind", 0, 0)
    s.ask("activate", 0, 0, want=(0, 0))
    for u in range(256):
        s.ask("appoint", 0, u, 0, want=(0, 0))


def limit_certificates():
    s = Session("limit-certificates")
    full_certificates(s)
    s.ask("appoint", 0, 256, 0, want=(6, 0))
    # The refused certificate is not there: role 1 rests on it (5), and there is
    # nothing to withdraw (9).
    s.ask("activate", 256, 1, want=(5, 0))
    s.ask("withdraw", 256, 0, 0, want=(9, 0))
    # The last of the 256 is there.
    s.ask("activate", 255, 1, want=(0, 1))
    # A certificate freed by withdraw serves once, one freed by revoke too.
    s.ask("withdraw", 10, 0, 0, want=(0, 0))
    s.ask("appoint", 0, 256, 0, want=(0, 0))
    s.ask("appoint", 0, 10, 0, want=(6, 0))
    s.ask("activate", 256, 1, want=(0, 1))
    s.ask("revoke", 0, 255, 0, 0, want=(0, 1))
    s.ask("appoint", 0, 10, 0, want=(0, 0))
    s.ask("appoint", 0, 255, 0, want=(6, 0))


def order_7_8_6():
    # A full table. User 1 is not in role 0: 7, both for a certificate that
    # would be new and for one that another appointer has given. User 0 is: 8
    # for a certificate that stands, 6 for a new one. There is no user 4,096 and
    # no kind 1: 3 before all others.
    s = Session("order-7-8-6")
    full_certificates(s)
    s.ask("appoint", 1, 300, 0, want=(7, 0))
    s.ask("appoint", 1, 5, 0, want=(7, 0))
    s.ask("appoint", 0, 5, 0, want=(8, 0))
    s.ask("appoint", 0, 255, 0, want=(8, 0))
    s.ask("appoint", 0, 256, 0, want=(6, 0))
    s.ask("appoint", 0, 4096, 0, want=(3, 0))
    s.ask("appoint", 0, 256, 1, want=(3, 0))


def limit_cascade():
    # Role 0 rests on fact 0, role r on role r - 1: rule r is role r's. User 3
    # takes all 256. The fact set false leaves nothing.
    s = Session("limit-cascade")
    s.put("rule", 0, 1, 384)
    for r in range(1, 256):
        s.put("rule", r, 1, r - 1)
    s.put("right", 255, 9)
    s.ask("env", 0, 1, want=(0, 0))
    for r in range(256):
        s.ask("activate", 3, r, want=(0, r))
    s.ask("invoke", 3, 9, want=(0, 1))
    s.ask("env", 0, 0, want=(0, 256))
    s.ask("invoke", 3, 9, want=(0, 0))
    s.ask("logout", 3, want=(0, 0))


BUILDS = (
    limit_rules,
    limit_kinds,
    limit_rights,
    limit_all_tables,
    limit_active,
    limit_certificates,
    order_7_8_6,
    limit_cascade,
)
