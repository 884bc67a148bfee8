/* Two buyers on one list: the house enters a lot while a buyer looks for it, and then downgrades it while one does. Then it scans a blank tag,
 * which is refused, and all lots are listed, each by a question of its own. At the end the house enters a lot by the second way, and a buyer is
 * on the top page with it; then one by the third, and waits only to change what a buyer still reads. Last, the words of the pool are kept and
 * opened again, as they are and with one of them changed. Writes each answer by its number. */
#include <stdio.h>
#include <string.h>

#include "ghazfulit.h"

#define K 2
#define N 64

static uint32_t state[GHAZFULIT_STATE];
static uint32_t words[GHAZFULIT_WORDS(K, N)];

/* Says an answer as a line: its name, and its values where it has some. */
static void say(const char *what, const uint32_t *answer) {
    switch (answer[0]) {
    case GHAZFULIT_BEGUN: printf("%s: Begun\n", what); break;
    case GHAZFULIT_WAITING: printf("%s: Waiting\n", what); break;
    case GHAZFULIT_MOVED: printf("%s: Moved\n", what); break;
    case GHAZFULIT_INSERTED: printf("%s: Inserted\n", what); break;
    case GHAZFULIT_FOUND: printf("%s: Found %u\n", what, (unsigned)answer[1]); break;
    case GHAZFULIT_REGRADED: printf("%s: Regraded %u\n", what, (unsigned)answer[1]); break;
    case GHAZFULIT_OPENED: printf("%s: Opened\n", what); break;
    case GHAZFULIT_BAD_KEY: printf("%s: BadKey\n", what); break;
    case GHAZFULIT_BAD_PAGE_IN_POOL: printf("%s: BadPageInPool %u\n", what, (unsigned)answer[1]); break;
    case GHAZFULIT_NEXT_LOT: printf("%s: Next %u %u\n", what, (unsigned)answer[1], (unsigned)answer[2]); break;
    case GHAZFULIT_REPORTED:
        printf("%s: lock %u, holders %u, lowest %u\n", what, (unsigned)answer[1], (unsigned)answer[2],
               (unsigned)answer[3]);
        break;
    default: printf("%s: answer %u\n", what, (unsigned)answer[0]);
    }
}

/* Who asks for what. */
static const char *asked(uint32_t kind) {
    switch (kind) {
    case GHAZFULIT_INSERT: return "the house enters a lot";
    case GHAZFULIT_INSERT_SECOND: return "the house enters a lot by the second way";
    case GHAZFULIT_INSERT_THIRD: return "the house enters a lot by the third way";
    case GHAZFULIT_REGRADE: return "the house downgrades a lot";
    default: return "a buyer looks for a lot";
    }
}

static void begin(uint32_t slot, uint32_t kind, uint32_t key, uint32_t information) {
    uint32_t answer[GHAZFULIT_ANSWER];
    ghazfulit_begin(state, slot, kind, key, information, answer);
    say(asked(kind), answer);
}

static void step(uint32_t slot) {
    uint32_t answer[GHAZFULIT_ANSWER];
    ghazfulit_step(state, words, GHAZFULIT_WORDS(K, N), slot, answer);
    say(slot == 0 ? "the house" : "the buyer", answer);
}

/* Steps a slot until its operation has ended; no other slot is open, so it never waits. */
static void finish(uint32_t slot, uint32_t *answer) {
    do {
        ghazfulit_step(state, words, GHAZFULIT_WORDS(K, N), slot, answer);
    } while (!GHAZFULIT_ENDS(answer[0]) && !GHAZFULIT_REFUSES(answer[0]));
}

/* Lists the lots from a key on, by asking for the next one behind the last. */
static void list(uint32_t key) {
    uint32_t answer[GHAZFULIT_ANSWER];
    for (;;) {
        ghazfulit_begin(state, 2, GHAZFULIT_NEXT, key, 0, answer);
        finish(2, answer);
        if (answer[0] != GHAZFULIT_NEXT_LOT) {
            return;
        }
        printf("lot %u: grade %u\n", (unsigned)answer[1], (unsigned)answer[2]);
        if (answer[1] == UINT32_MAX) {
            return;
        }
        key = answer[1] + 1;
    }
}

/* Keeps the words of the pool, and opens what was kept. It could have been a file: what is there is tested before it is used. */
static void keep_and_open(void) {
    static uint32_t kept[GHAZFULIT_WORDS(K, N)];
    uint32_t answer[GHAZFULIT_ANSWER];
    memcpy(kept, words, sizeof kept);
    ghazfulit_open(K, N, state, kept, GHAZFULIT_WORDS(K, N), answer);
    say("the lots that were kept", answer);
    kept[1] = 9;
    ghazfulit_open(K, N, state, kept, GHAZFULIT_WORDS(K, N), answer);
    say("with one word changed", answer);
}

int main(void) {
    uint32_t answer[GHAZFULIT_ANSWER];
    if (ghazfulit_version() != GHAZFULIT_VERSION) {
        printf("the archive is of version %u\n", (unsigned)ghazfulit_version());
        return 1;
    }
    ghazfulit_make(K, N, state, words, GHAZFULIT_WORDS(K, N), answer);
    if (answer[0] != GHAZFULIT_MADE) {
        printf("no pool: answer %u\n", (unsigned)answer[0]);
        return 1;
    }
    begin(0, GHAZFULIT_INSERT, 12, 3);
    begin(1, GHAZFULIT_SEARCH, 12, 0);
    step(1);
    step(0);
    step(1);
    begin(1, GHAZFULIT_NEXT, 10, 0);
    step(1);
    begin(0, GHAZFULIT_REGRADE, 12, 1);
    begin(1, GHAZFULIT_SEARCH, 12, 0);
    step(1);
    step(0);
    step(1);
    ghazfulit_report(state, 0, answer);
    say("page 0", answer);
    step(1);
    begin(2, 12, 12, 0);
    /* lot number 0 is that of a blank tag */
    begin(0, GHAZFULIT_INSERT, 0, 3);
    for (uint32_t i = 1; i <= 6; i++) {
        ghazfulit_begin(state, 0, GHAZFULIT_INSERT, 10 * i, i, answer);
        finish(0, answer);
    }
    list(0);
    begin(0, GHAZFULIT_INSERT_SECOND, 35, 4);
    begin(1, GHAZFULIT_SEARCH, 12, 0);
    step(0);
    step(1);
    ghazfulit_report(state, 0, answer);
    say("page 0", answer);
    step(0);
    step(1);
    /* the leaf of 45 is full then, so that page 0 has to change with it */
    ghazfulit_begin(state, 0, GHAZFULIT_INSERT, 55, 5, answer);
    finish(0, answer);
    begin(0, GHAZFULIT_INSERT_THIRD, 45, 5);
    begin(1, GHAZFULIT_SEARCH, 12, 0);
    step(0);
    step(1);
    ghazfulit_report(state, 0, answer);
    say("page 0", answer);
    step(0);
    step(0);
    step(1);
    step(0);
    step(0);
    keep_and_open();
    return 0;
}
