"""Effective privileges over many paths."""

from large.case import Session

# In all of these, role 0 is the bottom and alone has privilege 1. Every role
# above it rests, through membership conditions, on role 0 in the end, so
# privilege 1 is in each effective set. Nobody has privilege 2, so it is in
# none. The top has privilege 3 of its own, which the roles below it do not
# have: nothing below rests on the top.

BOTTOM, NOBODY, TOP = 1, 2, 3


def diamond_rights(s, top):
    s.put("right", 0, BOTTOM)
    s.put("right", top, TOP)


def diamond_questions(s, top):
    for role in (top, top - 1, top // 2, 1, 0):
        s.ask("effective", 0, role, BOTTOM, want=(0, 1))
        s.ask("effective", 0, role, NOBODY, want=(0, 0))
        s.ask("effective", 0, role, TOP, want=(0, 1 if role == top else 0))
    # All rows of user 0: the roles 0 to top.
    s.ask("logout", 0, want=(0, top + 1))
    s.ask("effective", 0, top, BOTTOM, want=(12, 0))


def effective_diamond_roles():
    # Role r rests on role r - 1, named eight times: 8 to the power of 255 ways
    # from the top to the bottom. Rule r is role r's.
    s = Session("effective-diamond-roles")
    s.put("rule", 0, 0)
    for r in range(1, 256):
        s.put("rule", r, 8, *[r - 1] * 8)
    diamond_rights(s, 255)
    for r in range(256):
        s.ask("activate", 0, r, want=(0, r))
    diamond_questions(s, 255)


def effective_diamond_kinds():
    # Kind k has the prerequisite role k four times, and role k + 1 rests on
    # kind k, named eight times: 32 ways from each role to the one below. User 0
    # appoints himself to every kind, being in role 0, the appointer role.
    s = Session("effective-diamond-kinds")
    s.put("rule", 0, 0)
    for k in range(128):
        s.put("rule", k + 1, 8, *[256 + k] * 8)
        s.put("kind", 0, 0, k, k, k, k)
    diamond_rights(s, 128)
    s.ask("activate", 0, 0, want=(0, 0))
    for k in range(128):
        s.ask("appoint", 0, 0, k, want=(0, 0))
    for r in range(1, 129):
        s.ask("activate", 0, r, want=(0, r))
    diamond_questions(s, 128)


def effective_diamond_mixed():
    # Role 2k + 1 rests on kind k, whose prerequisite is role 2k four times;
    # role 2k + 2 rests on role 2k + 1; each named eight times. The 128 kinds
    # carry the roles up to 255.
    s = Session("effective-diamond-mixed")
    s.put("rule", 0, 0)
    for r in range(1, 256):
        below = 256 + r // 2 if r % 2 else r - 1
        s.put("rule", r, 8, *[below] * 8)
    for k in range(128):
        s.put("kind", 0, 0, *[2 * k] * 4)
    diamond_rights(s, 255)
    s.ask("activate", 0, 0, want=(0, 0))
    for k in range(128):
        s.ask("appoint", 0, 0, k, want=(0, 0))
    for r in range(1, 256):
        s.ask("activate", 0, r, want=(0, r))
    diamond_questions(s, 255)


def effective_lattice():
    # Role r rests on the eight roles before it, r - 1 to r - 8, or on all there
    # are. Every role but role 0 rests on the role before it, so on role 0.
    s = Session("effective-lattice")
    for r in range(256):
        below = list(range(max(0, r - 8), r))[::-1]
        s.put("rule", r, len(below), *below)
    diamond_rights(s, 255)
    for r in range(256):
        s.ask("activate", 0, r, want=(0, r))
    diamond_questions(s, 255)


BUILDS = (
    effective_diamond_roles,
    effective_diamond_kinds,
    effective_diamond_mixed,
    effective_lattice,
)
