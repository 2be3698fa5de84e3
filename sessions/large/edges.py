"""The edges: tables that are full or short by one, and which code comes first there."""

from large.case import Session


def edge_active_257():
    # Rule r is for role r and has no conditions, so user 9 may take the roles
    # 0 to 255 one after another and each answers 0 and rule r: 256 rows. The
    # 257th row is user 10's. User 10 is not active in role 0 (not 4) and rule 0
    # is satisfied (not 5), so 6. The logout of user 9 finds all 256 rows, and
    # then there is room.
    s = Session("edge-active-257")
    for r in range(256):
        s.put("rule", r, 0)
    for r in range(256):
        s.ask("activate", 9, r, want=(0, r))
    s.ask("activate", 10, 0, want=(6, 0))
    s.ask("logout", 9, want=(0, 256))
    s.ask("activate", 10, 0, want=(0, 0))


def full_table(s):
    """256 users, 0 to 255, in role 0 by rule 0: the table is full."""
    for u in range(256):
        s.ask("activate", u, 0, want=(0, 0))


def edge_full_no_rule():
    # Rule 0 is free; rule 1 gives role 1 to those in role 0. With a full table
    # user 256, who is in no role, does not satisfy rule 1, and role 2 has no
    # rule: 5 both times, for 5 is asked before 6. Where a rule is satisfied it
    # is 6: role 0 for user 256, role 1 for user 0.
    s = Session("edge-full-no-rule")
    s.put("rule", 0, 0)
    s.put("rule", 1, 1, 0)
    full_table(s)
    s.ask("activate", 256, 1, want=(5, 0))
    s.ask("activate", 256, 2, want=(5, 0))
    s.ask("activate", 256, 0, want=(6, 0))
    s.ask("activate", 0, 1, want=(6, 0))


def order_4_6():
    # A full table; user 0 and user 255 ask for the role they have: 4 is asked
    # before 6. User 256 does not have it: 6. There is no user 4,096 and no role
    # 256: 3 before all others.
    s = Session("order-4-6")
    s.put("rule", 0, 0)
    full_table(s)
    s.ask("activate", 0, 0, want=(4, 0))
    s.ask("activate", 255, 0, want=(4, 0))
    s.ask("activate", 256, 0, want=(6, 0))
    s.ask("activate", 4096, 0, want=(3, 0))
    s.ask("activate", 256, 256, want=(3, 0))


def edge_kind_127():
    # 127 rows are the kinds 0 to 126. Kind 127 has no row: 3 in each call that
    # names a kind. Kind 126 has one. (Condition 382 names kind 126.)
    s = Session("edge-kind-127")
    s.put("rule", 0, 0)
    s.put("rule", 1, 1, 256 + 126)
    for _ in range(127):
        s.put("kind", 0, 0)
    s.ask("activate", 1, 0, want=(0, 0))
    s.ask("appoint", 1, 2, 127, want=(3, 0))
    s.ask("revoke", 1, 2, 127, 1, want=(3, 0))
    s.ask("withdraw", 2, 127, 1, want=(3, 0))
    s.ask("appoint", 1, 2, 126, want=(0, 0))
    s.ask("activate", 2, 1, want=(0, 1))
    s.ask("withdraw", 2, 126, 1, want=(0, 1))


def code_3_kind_127():
    # 128 rows are the kinds 0 to 127. Kind 128 has no row.
    s = Session("code-3-kind-127")
    s.put("rule", 0, 0)
    for _ in range(128):
        s.put("kind", 0, 0)
    s.ask("activate", 1, 0, want=(0, 0))
    s.ask("appoint", 1, 2, 127, want=(0, 0))
    s.ask("appoint", 1, 2, 128, want=(3, 0))
    s.ask("revoke", 1, 2, 128, 1, want=(3, 0))
    s.ask("withdraw", 2, 128, 1, want=(3, 0))
    s.ask("revoke", 1, 2, 127, 1, want=(0, 0))


def sound_edges():
    # Rule 2 has eight conditions, all of them membership conditions: role 255,
    # kind 127 (383), fact 63 (447), and role 0 five times. Kind 127 is the last
    # of 128 rows, in mode 2, with the prerequisites 0, 0, 0 and 255.
    # User 1: without role 255 the rule is not satisfied (5); with it, it is.
    # Mode 2 refuses (10). Fact 63 set false takes role 254 and nothing else.
    s = Session("sound-edges")
    s.put("rule", 0, 0)
    s.put("rule", 255, 0)
    s.put("rule", 254, 8, 255, 383, 447, 0, 0, 0, 0, 0)
    for _ in range(127):
        s.put("kind", 255, 0)
    s.put("kind", 0, 2, 0, 0, 0, 255)
    s.put("right", 254, 1023)
    s.ask("env", 63, 1, want=(0, 0))
    s.ask("activate", 1, 0, want=(0, 0))
    s.ask("appoint", 1, 1, 127, want=(0, 0))
    s.ask("activate", 1, 254, want=(5, 0))
    s.ask("activate", 1, 255, want=(0, 1))
    s.ask("activate", 1, 254, want=(0, 2))
    s.ask("invoke", 1, 1023, want=(0, 1))
    s.ask("effective", 1, 254, 1023, want=(0, 1))
    s.ask("revoke", 1, 1, 127, 1, want=(10, 0))
    s.ask("env", 63, 0, want=(0, 1))
    s.ask("invoke", 1, 1023, want=(0, 0))
    s.ask("logout", 1, want=(0, 2))


BUILDS = (
    edge_active_257,
    edge_full_no_rule,
    order_4_6,
    edge_kind_127,
    code_3_kind_127,
    sound_edges,
)
