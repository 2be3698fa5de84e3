/* Lends empty tables with any pointer that C allows: NULL, one past the end of an array, one to no array at all, and that of the state.
 * Fails if a call then answers or leaves another number than with a pointer to an array, or if it is accepted on more or fewer of the
 * empty tables than follows from the outline: an empty table that is never accepted would show little.
 */
#include <stdio.h>
#include <string.h>

#include "adobethrum.h"

enum { RULES, KINDS, RIGHTS, STATE, LIST, TABLES };
enum { POLICY_AND_STATE = 1 << RULES | 1 << KINDS | 1 << RIGHTS | 1 << STATE };

/* Role 0 asks nothing, appoints by kind 0, and has privilege 5. */
static uint16_t rules[ADOBETHRUM_RULE] = {0}, kinds[ADOBETHRUM_KIND] = {0}, rights[] = {0, 5};

struct table {
    uint16_t *start;
    size_t count;
};

#define LENGTH(table) (sizeof(table) / sizeof((table)[0]))
#define TABLE(table) lent[table].start, lent[table].count
#define LENT TABLE(RULES), TABLE(KINDS), TABLE(RIGHTS), TABLE(STATE)

typedef struct adobethrum_answer answer;
static answer fresh(const struct table *lent) { return adobethrum_fresh(TABLE(STATE)); }
static answer activate(const struct table *lent) { return adobethrum_activate(LENT, 2, 0); }
static answer appoint(const struct table *lent) { return adobethrum_appoint(LENT, 1, 3, 0); }
static answer revoke(const struct table *lent) { return adobethrum_revoke(LENT, 1, 2, 0, 1); }
static answer withdraw(const struct table *lent) { return adobethrum_withdraw(LENT, 2, 0, 1); }
static answer environment(const struct table *lent) { return adobethrum_environment(LENT, 0, 1); }
static answer logout(const struct table *lent) { return adobethrum_logout(LENT, 1); }
static answer invoke(const struct table *lent) { return adobethrum_invoke(LENT, 1, 5); }
static answer effective(const struct table *lent) { return adobethrum_effective(LENT, 1, 0, 5); }
static answer chain(const struct table *lent) { return adobethrum_chain(LENT, 1, 0, TABLE(LIST)); }

/* A call, the tables that it is lent, and how often it is accepted where some of them are empty. A state or a list of no numbers is
 * refused. Where user 1 is in role 0 and user 2 is appointed, rules and kinds are needed and the rights alone may be empty: one
 * acceptance each. A fresh state is sound under all seven policies with an empty table: three of them have the rule that activate
 * needs, and environment, logout and invoke need nothing.
 */
static const struct tried {
    const char *name;
    answer (*call)(const struct table *);
    unsigned lent;
    unsigned accepted;
} calls[] = {
    {"fresh", fresh, 1 << STATE, 0},
    {"activate", activate, POLICY_AND_STATE, 3 + 1},
    {"appoint", appoint, POLICY_AND_STATE, 1},
    {"revoke", revoke, POLICY_AND_STATE, 1},
    {"withdraw", withdraw, POLICY_AND_STATE, 1},
    {"environment", environment, POLICY_AND_STATE, 7 + 1},
    {"logout", logout, POLICY_AND_STATE, 7 + 1},
    {"invoke", invoke, POLICY_AND_STATE, 7 + 1},
    {"effective", effective, POLICY_AND_STATE, 1},
    {"chain", chain, POLICY_AND_STATE | 1 << LIST, 1},
};

/* What a call answered and left. */
struct outcome {
    answer got;
    uint16_t state[ADOBETHRUM_STATE], list[ADOBETHRUM_LIST];
};

static uint16_t before[2][ADOBETHRUM_STATE], array[1];
static struct outcome wanted, other;
static uint16_t *const pointers[] = {NULL, rules + LENGTH(rules), (uint16_t *)sizeof(uint16_t), other.state};

static int make_states(void)
{
    struct table lent[] = {{rules, LENGTH(rules)}, {kinds, LENGTH(kinds)}, {rights, LENGTH(rights)}, {before[1], ADOBETHRUM_STATE}};
    return fresh(lent).code == 0 && adobethrum_activate(LENT, 1, 0).code == 0 && adobethrum_appoint(LENT, 1, 2, 0).code == 0;
}

/* Makes the call; the tables of the set `empty` have no numbers, and that pointer. */
static void make(const struct tried *t, const uint16_t *state, unsigned empty, uint16_t *pointer, struct outcome *left)
{
    struct table lent[TABLES] = {{rules, LENGTH(rules)}, {kinds, LENGTH(kinds)}, {rights, LENGTH(rights)},
                                 {left->state, ADOBETHRUM_STATE}, {left->list, ADOBETHRUM_LIST}};
    memcpy(left->state, state, sizeof left->state);
    memset(left->list, 9, sizeof left->list);
    for (unsigned table = 0; table < TABLES; table++)
        if (empty & 1u << table)
            lent[table] = (struct table){pointer, 0};
    left->got = t->call(lent);
}

static int is_alike(const struct tried *t)
{
    unsigned accepted = 0, differ = 0;
    for (unsigned s = 0; s < LENGTH(before); s++)
        for (unsigned empty = 1; empty < 1u << TABLES; empty++) {
            if (empty & ~t->lent)
                continue;
            make(t, before[s], empty, array, &wanted);
            accepted += wanted.got.code == ADOBETHRUM_ACCEPTED;
            for (size_t p = 0; p < LENGTH(pointers); p++) {
                make(t, before[s], empty, pointers[p], &other);
                differ += memcmp(&other, &wanted, sizeof wanted) != 0;
            }
        }
    printf("%s: %u accepted with empty tables, %u answered otherwise with another pointer\n", t->name, accepted, differ);
    return accepted == t->accepted && differ == 0;
}

int main(void)
{
    int good = make_states();
    for (size_t c = 0; c < LENGTH(calls); c++)
        good &= is_alike(&calls[c]);
    return good ? 0 : 1;
}
