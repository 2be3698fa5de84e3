/* Measures how much stack each of the ten calls takes, on the tables that lead deepest: one user in all 256 roles, each resting on
 * the one before it, the upper half through certificates with a prerequisite role. Fails if a call is refused or takes over ROOM.
 */
#define _POSIX_C_SOURCE 200112L
#include <pthread.h>
#include <stdio.h>

#include "adobethrum.h"

enum { ROLES = 256, HALF = 128, KIND = 256, USER = 1, PAINT = 0xA5, OWN_FRAME = 256 };
enum { ROOM = 96 * 1024, STACK = 1024 * 1024 };

static uint16_t rules[ROLES * ADOBETHRUM_RULE], kinds[HALF * ADOBETHRUM_KIND], rights[] = {0, 1023};
static uint16_t state[ADOBETHRUM_STATE], list[ADOBETHRUM_LIST];
static unsigned char stack[STACK];

#define LENGTH(table) (sizeof(table) / sizeof((table)[0]))
#define LENT rules, LENGTH(rules), kinds, LENGTH(kinds), rights, LENGTH(rights), state, ADOBETHRUM_STATE

typedef struct adobethrum_answer answer;
static answer none(void) { return (answer){0, 0}; }
static answer effective(void) { return adobethrum_effective(LENT, USER, ROLES - 1, 1022); }
static answer chain(void) { return adobethrum_chain(LENT, USER, ROLES - 1, list, ADOBETHRUM_LIST); }
static answer invoke(void) { return adobethrum_invoke(LENT, USER, 1022); }
static answer environment(void) { return adobethrum_environment(LENT, 0, 1); }
static answer revoke(void) { return adobethrum_revoke(LENT, USER, USER, HALF - 1, USER); }
static answer appoint(void) { return adobethrum_appoint(LENT, USER, USER, HALF - 1); }
static answer activate(void) { return adobethrum_activate(LENT, USER, ROLES - 1); }
static answer withdraw(void) { return adobethrum_withdraw(LENT, USER, 0, USER); }
static answer logout(void) { return adobethrum_logout(LENT, USER); }
static answer fresh(void) { return adobethrum_fresh(state, ADOBETHRUM_STATE); }

struct measured {
    const char *name;
    answer (*call)(void);
    answer got;
    size_t taken;
};

/* In this order each call is accepted: revoke takes the last role, which appoint and activate bring back. */
static struct measured calls[] = {
    {"nothing", none, {0, 0}, 0},
    {"effective", effective, {0, 0}, 0},
    {"chain", chain, {0, 0}, 0},
    {"invoke", invoke, {0, 0}, 0},
    {"environment", environment, {0, 0}, 0},
    {"revoke", revoke, {0, 0}, 0},
    {"appoint", appoint, {0, 0}, 0},
    {"activate", activate, {0, 0}, 0},
    {"withdraw", withdraw, {0, 0}, 0},
    {"logout", logout, {0, 0}, 0},
    {"fresh", fresh, {0, 0}, 0},
};

static void paint_below(size_t end)
{
    for (size_t i = 0; i < end; i++)
        stack[i] = PAINT;
}

static size_t lowest_touched(void)
{
    size_t i = 0;
    while (i < STACK && stack[i] == PAINT)
        i++;
    return i;
}

/* Runs on the painted stack. What the call took is counted from this frame downwards. */
static void *measure(void *argument)
{
    struct measured *m = argument;
    volatile char here = 0;
    size_t top = (size_t)((uintptr_t)&here - (uintptr_t)stack);
    paint_below(top - OWN_FRAME);
    m->got = m->call();
    m->taken = top - lowest_touched();
    return NULL;
}

static int on_painted_stack(struct measured *m)
{
    pthread_attr_t attributes;
    pthread_t thread;
    return pthread_attr_init(&attributes) == 0 && pthread_attr_setstack(&attributes, stack, STACK) == 0 &&
           pthread_create(&thread, &attributes, measure, m) == 0 && pthread_join(thread, NULL) == 0;
}

static void make_policy(void)
{
    for (unsigned r = 0; r < ROLES; r++) {
        uint16_t *rule = rules + r * ADOBETHRUM_RULE;
        rule[0] = (uint16_t)r;
        rule[1] = rule[2] = r > 0;
        rule[3] = (uint16_t)(r == 0 ? 0 : r < HALF ? r - 1 : KIND + r - HALF);
        if (r >= HALF) {
            uint16_t *kind = kinds + (r - HALF) * ADOBETHRUM_KIND;
            kind[1] = kind[2] = 1;
            kind[3] = (uint16_t)(r - 1);
        }
    }
}

/* The user in all roles, with a certificate of every kind. */
static int fill_state(void)
{
    int refused = adobethrum_fresh(state, ADOBETHRUM_STATE).code;
    for (uint16_t r = 0; r < ROLES; r++) {
        if (r >= HALF)
            refused |= adobethrum_appoint(LENT, USER, USER, (uint16_t)(r - HALF)).code;
        refused |= adobethrum_activate(LENT, USER, r).code;
    }
    return !refused;
}

int main(void)
{
    make_policy();
    int good = fill_state();
    for (size_t i = 0; i < LENGTH(calls); i++) {
        struct measured *m = &calls[i];
        good &= on_painted_stack(m) && m->got.code == ADOBETHRUM_ACCEPTED && m->taken <= ROOM;
        printf("%s: %u,%u: %zu bytes of stack\n", m->name, m->got.code, m->got.second, m->taken);
    }
    return good ? 0 : 1;
}
