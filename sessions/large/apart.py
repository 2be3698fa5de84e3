"""Numbers that differ in one bit only are told apart."""

from large.case import Session


def one_bit_away(number, bits):
    return [number ^ (1 << bit) for bit in range(bits)]


def apart_users():
    # User 4,095 is in role 0 and appoints user 0, who is in role 2 on that
    # certificate. Beside each stand the twelve whose number differs in one bit.
    appointer, appointee = 4095, 0
    appointers = one_bit_away(appointer, 12)
    appointees = one_bit_away(appointee, 12)
    assert not set(appointers) & set(appointees)
    s = Session("apart-users")
    s.put("rule", 0, 0)
    s.put("rule", 1, 1, 0)
    s.put("rule", 2, 1, 256)
    s.put("kind", 0, 0)
    s.put("right", 0, 0)
    s.ask("activate", appointer, 0, want=(0, 0))
    s.ask("appoint", appointer, appointee, 0, want=(0, 0))
    s.ask("activate", appointee, 2, want=(0, 2))
    # None of the others is in role 0, has appointed user 0 or may revoke what
    # user 4,095 has given; none has been appointed.
    for other in appointers:
        s.ask("activate", other, 1, want=(5, 0))
        s.ask("invoke", other, 0, want=(0, 0))
        s.ask("effective", other, 0, 0, want=(12, 0))
        s.ask("appoint", other, appointee, 0, want=(7, 0))
        s.ask("revoke", other, appointee, 0, appointer, want=(10, 0))
        s.ask("withdraw", appointee, 0, other, want=(9, 0))
        s.ask("logout", other, want=(0, 0))
    for other in appointees:
        s.ask("activate", other, 2, want=(5, 0))
        s.ask("withdraw", other, 0, appointer, want=(9, 0))
    # All of them at once, each with a row and a certificate of his own.
    for other in appointers:
        s.ask("activate", other, 0, want=(0, 0))
        s.ask("appoint", other, appointee, 0, want=(0, 0))
    for other in appointees:
        s.ask("appoint", appointer, other, 0, want=(0, 0))
        s.ask("activate", other, 2, want=(0, 2))
    # With each certificate one appointee's role falls. User 0 has thirteen, and
    # his role falls with the last.
    for other in appointees:
        s.ask("withdraw", other, 0, appointer, want=(0, 1))
    for other in appointers:
        s.ask("logout", other, want=(0, 1))
        s.ask("withdraw", appointee, 0, other, want=(0, 0))
    s.ask("revoke", appointer, appointee, 0, appointer, want=(0, 1))
    s.ask("logout", appointer, want=(0, 1))


def apart_privileges():
    # Role 0 has privilege 1,023, and none of the ten beside it.
    s = Session("apart-privileges")
    s.put("rule", 0, 0)
    s.put("right", 0, 1023)
    s.ask("activate", 1, 0, want=(0, 0))
    s.ask("invoke", 1, 1023, want=(0, 1))
    s.ask("effective", 1, 0, 1023, want=(0, 1))
    for other in one_bit_away(1023, 10):
        s.ask("invoke", 1, other, want=(0, 0))
        s.ask("effective", 1, 0, other, want=(0, 0))


def apart_facts():
    # Role 0 rests on fact 63, and the roles 1 to 6 on the six facts beside it.
    # Only fact 63 is true, so only role 0 can be had. The others set false, one
    # after another, leave it.
    others = one_bit_away(63, 6)
    s = Session("apart-facts")
    for role, fact in enumerate([63] + others):
        s.put("rule", role, 1, 384 + fact)
    s.ask("env", 63, 1, want=(0, 0))
    s.ask("activate", 1, 0, want=(0, 0))
    for role, _ in enumerate(others, 1):
        s.ask("activate", 1, role, want=(5, 0))
    for fact in others:
        s.ask("env", fact, 0, want=(0, 0))
    s.ask("env", 63, 0, want=(0, 1))


BUILDS = (apart_users, apart_privileges, apart_facts)
