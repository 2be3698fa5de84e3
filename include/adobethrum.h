/* Adobethrum: a role engine for terminals.
 *
 * Ten calls on tables that the caller lends. Each takes any tables and any numbers: it does what it says, or it refuses with a code,
 * returns zero as its second number and changes nothing. Nothing is kept between calls, nothing is allocated, and calls on different
 * states may run at the same time.
 *
 * Link with libborder.a (x86-64 Linux).
 *
 * Tables are arrays of 16-bit numbers, given as a pointer and a count of numbers (not of bytes, not of rows):
 *   rules   at most 512 rows of 11: target role, n, m, eight conditions, those past n being 0
 *   kinds   at most 128 rows of 7: appointer role, mode, s, four prerequisite roles, those past s being 0
 *   rights  at most 2,048 rows of 2: role, privilege
 *   state   exactly 1,602 numbers; adobethrum_fresh writes the first one
 *   list    exactly 256 numbers, for adobethrum_chain
 *
 * What is asked of pointers: each points to as many readable numbers as its count says, aligned as uint16_t is; state and list, where
 * they are not const, are writable and overlap no other table of the call. Of the pointer of an empty table, whose count is 0, nothing
 * is asked: it may be any that C allows, NULL too, since nothing is read or written through it.
 */
#ifndef ADOBETHRUM_H
#define ADOBETHRUM_H

#include <stddef.h>
#include <stdint.h>

#ifdef __cplusplus
extern "C" {
#endif

/* Lengths in numbers. */
#define ADOBETHRUM_STATE 1602
#define ADOBETHRUM_LIST 256
#define ADOBETHRUM_RULE 11
#define ADOBETHRUM_KIND 7
#define ADOBETHRUM_RIGHT 2

/* The code is 0 for acceptance. The first of these that applies is given. */
enum {
    ADOBETHRUM_ACCEPTED = 0,
    ADOBETHRUM_MALFORMED_POLICY = 1,
    ADOBETHRUM_UNSOUND_STATE = 2,          /* or a state that is not of 1,602 numbers */
    ADOBETHRUM_OUT_OF_RANGE = 3,           /* an argument, a kind without a row, a list that is not of 256 numbers */
    ADOBETHRUM_ALREADY_ACTIVE = 4,
    ADOBETHRUM_NO_RULE_SATISFIED = 5,
    ADOBETHRUM_TABLE_FULL = 6,
    ADOBETHRUM_NOT_IN_APPOINTER_ROLE = 7,
    ADOBETHRUM_STANDS_ALREADY = 8,
    ADOBETHRUM_NO_SUCH_CERTIFICATE = 9,
    ADOBETHRUM_MAY_NOT_REVOKE = 10,
    ADOBETHRUM_WRITTEN_TWICE = 11,         /* no sound state leads to it */
    ADOBETHRUM_NOT_ACTIVE = 12
};

struct adobethrum_answer {
    uint16_t code;
    uint16_t second;
};

/* The policy, as every call but fresh is lent it. */
#define ADOBETHRUM_POLICY \
    const uint16_t *rules, size_t rules_len, const uint16_t *kinds, size_t kinds_len, const uint16_t *rights, size_t rights_len

/* All zeros: no facts, no active roles, no certificates. Refuses 2 for a wrong length only. */
struct adobethrum_answer adobethrum_fresh(uint16_t *state, size_t state_len);

/* Grants the role by the lowest rule for it whose conditions all hold; second is that rule. Refuses 1, 2, 3, 4, 5, 6. */
struct adobethrum_answer adobethrum_activate(ADOBETHRUM_POLICY, uint16_t *state, size_t state_len, uint16_t user, uint16_t role);

/* Adds a certificate, if the appointer is active in the kind's appointer role. Refuses 1, 2, 3, 7, 8, 6. */
struct adobethrum_answer adobethrum_appoint(ADOBETHRUM_POLICY, uint16_t *state, size_t state_len, uint16_t appointer, uint16_t appointee,
                                            uint16_t kind);

/* Takes a certificate away, if the kind's mode and the caller allow it; second is how many roles fell. Refuses 1, 2, 3, 9, 10. */
struct adobethrum_answer adobethrum_revoke(ADOBETHRUM_POLICY, uint16_t *state, size_t state_len, uint16_t caller, uint16_t appointee,
                                           uint16_t kind, uint16_t appointer);

/* Takes a certificate away by the system, whichever the mode; second is how many roles fell. Refuses 1, 2, 3, 9. */
struct adobethrum_answer adobethrum_withdraw(ADOBETHRUM_POLICY, uint16_t *state, size_t state_len, uint16_t appointee, uint16_t kind,
                                             uint16_t appointer);

/* Sets a fact to 0 or 1; second is how many roles fell. Refuses 1, 2, 3. */
struct adobethrum_answer adobethrum_environment(ADOBETHRUM_POLICY, uint16_t *state, size_t state_len, uint16_t fact, uint16_t value);

/* Drops all the user's roles; second is how many. Certificates stay. Refuses 1, 2, 3. */
struct adobethrum_answer adobethrum_logout(ADOBETHRUM_POLICY, uint16_t *state, size_t state_len, uint16_t user);

/* Second is 1 if some active role of the user has the right, else 0. Refuses 1, 2, 3. */
struct adobethrum_answer adobethrum_invoke(ADOBETHRUM_POLICY, const uint16_t *state, size_t state_len, uint16_t user, uint16_t privilege);

/* Second is 1 if the privilege is in the active role's effective set (its own rights, and those of the roles on which it rests), else
 * 0. Refuses 1, 2, 3, 12. */
struct adobethrum_answer adobethrum_effective(ADOBETHRUM_POLICY, const uint16_t *state, size_t state_len, uint16_t user, uint16_t role,
                                              uint16_t privilege);

/* Writes the role, the first role on which it rests, and so on, and zeros behind; second is how many roles. Refuses 1, 2, 3, 12, 11;
 * a refusal leaves the list as it was. */
struct adobethrum_answer adobethrum_chain(ADOBETHRUM_POLICY, const uint16_t *state, size_t state_len, uint16_t user, uint16_t role,
                                          uint16_t *list, size_t list_len);

#undef ADOBETHRUM_POLICY

#ifdef __cplusplus
}
#endif

#endif
