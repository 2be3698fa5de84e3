/* The yard's terminal in C: from empty tables to the closed job, through the ten calls (docs/HANDBOOK.md). */
#include <stdio.h>
#include <stdlib.h>
#include <string.h>

#include "adobethrum.h"

enum { ON_SHIFT, MANAGER, MEMORY, WIPE_CHECK };    /* roles */
enum { OPEN_MEMORY = 20, READ_MESSAGES = 30 };     /* privileges */
enum { CAR = 0, IN_THE_BAY = 0 };                  /* a kind of certificate, and a fact */
enum { KIND = 256, FACT = 384 };                   /* where kinds and facts begin in a condition */

static const uint16_t rules[] = {
    ON_SHIFT, 0, 0, 0, 0, 0, 0, 0, 0, 0, 0,
    MANAGER, 0, 0, 0, 0, 0, 0, 0, 0, 0, 0,
    MEMORY, 2, 2, ON_SHIFT, KIND + CAR, 0, 0, 0, 0, 0, 0,
    WIPE_CHECK, 2, 2, MEMORY, FACT + IN_THE_BAY, 0, 0, 0, 0, 0, 0,
};
static const uint16_t kinds[] = {MANAGER, 1, 0, 0, 0, 0, 0};
static const uint16_t rights[] = {MEMORY, OPEN_MEMORY, WIPE_CHECK, READ_MESSAGES};

/* What every call but fresh is lent before its arguments. */
#define LENGTH(table) (sizeof(table) / sizeof((table)[0]))
#define LENT rules, LENGTH(rules), kinds, LENGTH(kinds), rights, LENGTH(rights), state, ADOBETHRUM_STATE

/* What a technician is told for each code. */
static const char *const told[] = {
    "Done.",
    "The policy of this terminal is broken. Stop, and call the foreman.",
    "The records of this terminal are broken. Stop, and call the foreman.",
    "There is no such number here. Check the badge.",
    "You hold this role already.",
    "Not now. Ask the manager whether you are appointed.",
    "All places are taken. Call the foreman.",
    "Only a manager may appoint.",
    "This appointment stands already.",
    "There is no such appointment.",
    "You may not end this appointment.",
    "The records of this terminal are broken. Stop, and call the foreman.",
    "You do not hold this role.",
};

/* What the second number of an accepted call is to a technician: nothing, how many roles ended, or yes and no. */
enum second { DONE, ENDED, ALLOWED };

/* Tells what a call answered, and gives its second number. After broken tables nothing can be relied on: the terminal
 * stops. Any other refusal has changed nothing, and the work goes on. */
static unsigned tell(enum second second, const char *what, struct adobethrum_answer answer)
{
    printf("%s: %u,%u: ", what, answer.code, answer.second);
    if (answer.code != ADOBETHRUM_ACCEPTED || second == DONE)
        puts(told[answer.code]);
    else if (second == ENDED)
        printf("Roles ended: %u.\n", answer.second);
    else
        puts(answer.second ? "Yes." : "No.");
    if (answer.code == ADOBETHRUM_MALFORMED_POLICY || answer.code == ADOBETHRUM_UNSOUND_STATE ||
        answer.code == ADOBETHRUM_WRITTEN_TWICE)
        exit(1);
    return answer.second;
}

static void work(uint16_t *state)
{
    uint16_t list[ADOBETHRUM_LIST] = {0};
    tell(ENDED, "the car comes into the bay", adobethrum_environment(LENT, IN_THE_BAY, 1));
    tell(DONE, "manager 7 logs in", adobethrum_activate(LENT, 7, MANAGER));
    tell(DONE, "technician 41 logs in", adobethrum_activate(LENT, 41, ON_SHIFT));
    tell(DONE, "technician 42 logs in", adobethrum_activate(LENT, 42, ON_SHIFT));
    tell(DONE, "41 asks for the dashboard's memory", adobethrum_activate(LENT, 41, MEMORY));
    tell(DONE, "41 appoints himself to the car", adobethrum_appoint(LENT, 41, 41, CAR));
    tell(DONE, "7 appoints 41 to the car", adobethrum_appoint(LENT, 7, 41, CAR));
    tell(DONE, "7 appoints 41 once more", adobethrum_appoint(LENT, 7, 41, CAR));
    tell(DONE, "41 asks for the dashboard's memory", adobethrum_activate(LENT, 41, MEMORY));
    tell(DONE, "41 asks for it once more", adobethrum_activate(LENT, 41, MEMORY));
    tell(DONE, "41 asks for the wipe check", adobethrum_activate(LENT, 41, WIPE_CHECK));
    tell(ALLOWED, "41 reads the seller's messages", adobethrum_invoke(LENT, 41, READ_MESSAGES));
    tell(ALLOWED, "does his wipe check open the memory", adobethrum_effective(LENT, 41, WIPE_CHECK, OPEN_MEMORY));
    tell(DONE, "what his wipe check rests on", adobethrum_chain(LENT, 41, WIPE_CHECK, list, ADOBETHRUM_LIST));
    printf("-- roles %u, %u, %u\n", list[0], list[1], list[2]);
    tell(ALLOWED, "42 reads the seller's messages", adobethrum_invoke(LENT, 42, READ_MESSAGES));
    tell(ALLOWED, "does her wipe check open the memory", adobethrum_effective(LENT, 42, WIPE_CHECK, OPEN_MEMORY));
    tell(ENDED, "41 ends his own appointment", adobethrum_revoke(LENT, 41, 41, CAR, 7));
    tell(DONE, "badge 5000 logs in", adobethrum_activate(LENT, 5000, ON_SHIFT));
}

static unsigned close_entry(uint16_t *state, unsigned entry)
{
    switch (entry) {
    case 0: return tell(ENDED, "the appointment of 41 ends", adobethrum_withdraw(LENT, 41, CAR, 7));
    case 1: return tell(ENDED, "the appointment of 42 ends", adobethrum_withdraw(LENT, 42, CAR, 7));
    case 2: return tell(ENDED, "the car leaves the bay", adobethrum_environment(LENT, IN_THE_BAY, 0));
    default: return tell(ENDED, "41 logs out", adobethrum_logout(LENT, 41));
    }
}

/* Runs the closing list from its entry `first` to the end, then the entries before it. */
static unsigned close_job(uint16_t *state, unsigned first)
{
    unsigned ended = 0;
    printf("-- the closing list, from entry %u\n", first);
    for (unsigned i = 0; i < 4; i++)
        ended += close_entry(state, (first + i) % 4);
    printf("-- roles ended in all: %u\n", ended);
    return ended;
}

int main(void)
{
    uint16_t state[ADOBETHRUM_STATE], other[ADOBETHRUM_STATE];
    tell(DONE, "a fresh state", adobethrum_fresh(state, ADOBETHRUM_STATE));
    work(state);
    memcpy(other, state, sizeof state);
    unsigned ended = close_job(state, 0);
    unsigned other_ended = close_job(other, 2);
    unsigned differ = 0;
    for (size_t i = 0; i < ADOBETHRUM_STATE; i++)
        differ += state[i] != other[i];
    printf("-- numbers that differ: %u of %d\n", differ, ADOBETHRUM_STATE);
    tell(ALLOWED, "41 reads the seller's messages", adobethrum_invoke(LENT, 41, READ_MESSAGES));
    return differ == 0 && ended == other_ended ? 0 : 2;
}
