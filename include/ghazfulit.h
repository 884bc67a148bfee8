/* Ghazfulit: an index of lots for many buyers, each step of which is proved to follow its rules.
 *
 * The caller lends two stretches of 32-bit words, and keeps them between calls: GHAZFULIT_STATE words for the state and
 * GHAZFULIT_WORDS(k, n) for the pool. A call writes its answer into GHAZFULIT_ANSWER words: its number, and behind it its
 * values, or 0. Whatever the words hold, every call ends, stays within them and answers; a refused call leaves them as they
 * were (but for a refused making or opening, which clears the state). docs/CALLS.md has each call with all its answers.
 *
 * What the caller owes is only this: each pointer leads to as many words as are named here; they do not overlap; and while a call
 * runs nobody else writes them. A call tests pages first and then reads them again, so what another thread writes meanwhile is
 * outside what is proved. Calls that are lent different words may run at the same time: the library keeps nothing of its own.
 */
#ifndef GHAZFULIT_H
#define GHAZFULIT_H

#include <stddef.h>
#include <stdint.h>

#ifdef __cplusplus
extern "C" {
#endif

/* Raised with every change of a number, of an answer's values or of what the words of the state mean. 2: AlreadyThere has a value,
 * and Next never tells a key below the one asked for. 3: updates by the second way, and for them a row more of the state. 4: four kinds
 * of lock; updates by the second way hold with updater's rho, and a page that is held has the kind of its lock in its word. 5: updates
 * by the third way, which hold with alpha and want a page that they hold once more, with xi. 6: a pool that is handed in is opened, and
 * three answers more. 7: key 0 is no lot's: begin refuses it but for a Next, and a leaf with it is not sound.
 * ghazfulit_version() gives the archive's own. */
#define GHAZFULIT_VERSION 7

/* Words of a state, words of an answer, slots, and the largest k and n. A state's words are the library's own; docs/DECISIONS.md has
 * how they lie ("Layout"). The word of a page that a slot holds is the page and 65,536 times the number of the kind of its lock, as the
 * numbers stand below. So a state that an older version left, with a page held in it, is not sound for this one. */
#define GHAZFULIT_STATE 451
#define GHAZFULIT_ANSWER 4
#define GHAZFULIT_SLOTS 16
#define GHAZFULIT_LARGEST_K 16
#define GHAZFULIT_LARGEST_N 1024

/* Words of a pool of n pages of width k. */
#define GHAZFULIT_WORDS(k, n) ((size_t)(n) * (4 * (size_t)(k) + 3))

/* Kinds of operation. An update has three ways, and does the same by each. By the first it takes xi-locks from page 0 on: what it holds
 * nobody else can read. By the second it goes down with updater's rho, beside all who read, and wants xi on its leaf alone. Where the
 * change would reach beyond the leaf, and where page 0 is a leaf, it gives up what it holds and begins again by the first way; that is
 * answered Moved. By the third it holds what it would hold by the first, but with alpha, beside those who read. When it knows its change,
 * it wants each page that it holds once more, with xi, from the top down, one a step; each is answered Moved, and the last with the change.
 * Such a want waits for those who hold the page, and comes before every other want of it. */
enum {
    GHAZFULIT_SEARCH = 1,
    GHAZFULIT_INSERT = 2,
    GHAZFULIT_DELETE = 3,
    GHAZFULIT_NEXT = 4,           /* the first lot at or above a key */
    GHAZFULIT_REGRADE = 5,        /* new information under a key that is there */
    GHAZFULIT_INSERT_SECOND = 6,  /* the same three updates by the second way */
    GHAZFULIT_DELETE_SECOND = 7,
    GHAZFULIT_REGRADE_SECOND = 8,
    GHAZFULIT_INSERT_THIRD = 9,   /* and by the third */
    GHAZFULIT_DELETE_THIRD = 10,
    GHAZFULIT_REGRADE_THIRD = 11
};

/* Answers. Below 32 are refusals. */
enum {
    GHAZFULIT_BAD_STATE = 1,      /* the state is not sound */
    GHAZFULIT_BAD_POOL = 2,       /* k, n or the number of words is out of range */
    GHAZFULIT_BAD_SLOT = 3,       /* a slot above 15 */
    GHAZFULIT_SLOT_BUSY = 4,      /* begin on an open slot */
    GHAZFULIT_SLOT_IDLE = 5,      /* step on a closed slot */
    GHAZFULIT_DAMAGED = 6,        /* a granted step would meet pages that are not sound */
    GHAZFULIT_BAD_PAGE = 7,       /* a report for a page n or above */
    GHAZFULIT_BAD_KEY = 8,        /* begin with key 0, that of a blank tag, for any kind but Next */
    GHAZFULIT_BAD_PAGE_IN_POOL = 9, /* opening: with the lowest page that is not sound by itself */
    GHAZFULIT_BAD_TREE = 10,      /* opening: each page is sound by itself, but they are not the tree from page 0 */
    GHAZFULIT_BAD_KIND = 31,      /* a kind of operation that does not exist */
    GHAZFULIT_WAITING = 32,       /* the lock is not to be had yet */
    GHAZFULIT_MOVED = 33,         /* one lock more, or a stronger one; or all given up, and the update begins again */
    GHAZFULIT_FOUND = 34,         /* with the information */
    GHAZFULIT_NOT_FOUND = 35,
    GHAZFULIT_INSERTED = 36,
    GHAZFULIT_ALREADY_THERE = 37, /* with the information that is there */
    GHAZFULIT_DELETED = 38,       /* with the information */
    GHAZFULIT_NO_SUCH_KEY = 39,
    GHAZFULIT_NO_ROOM = 40,
    GHAZFULIT_BEGUN = 41,
    GHAZFULIT_MADE = 42,
    GHAZFULIT_REPORTED = 43,      /* with the strongest kind of lock, the number of holders, the lowest holder (16 for none) */
    GHAZFULIT_NEXT_LOT = 44,      /* Next, with the key and the information */
    GHAZFULIT_NO_LOT = 45,        /* None: no lot at or above the key */
    GHAZFULIT_REGRADED = 46,      /* with the old information */
    GHAZFULIT_OPENED = 47
};

/* Whether an answer, by its number, is a refusal; whether a step's answer ends the operation, so that its slot is closed. The number
 * is read more than once. */
#define GHAZFULIT_REFUSES(number) ((number) < GHAZFULIT_WAITING)
#define GHAZFULIT_ENDS(number) \
    (((number) >= GHAZFULIT_FOUND && (number) <= GHAZFULIT_NO_ROOM) || \
     ((number) >= GHAZFULIT_NEXT_LOT && (number) <= GHAZFULIT_REGRADED))

/* Kinds of lock, as a report and the words of the state have them. On one page rho goes with all but xi, updater's rho with both rho,
 * alpha with rho alone, and xi with nothing. A report has the first that is there of xi, alpha, updater's rho and rho, while the number of
 * holders and the lowest of them are counted over all kinds. */
enum {
    GHAZFULIT_LOCK_NONE = 0,
    GHAZFULIT_LOCK_RHO = 1,         /* of a search or a Next */
    GHAZFULIT_LOCK_XI = 2,          /* of an update by the first way, and by the third where the page was converted */
    GHAZFULIT_LOCK_UPDATER_RHO = 3, /* of an update by the second way */
    GHAZFULIT_LOCK_ALPHA = 4        /* of an update by the third way */
};

/* Makes a fresh pool of n pages of width k, and writes every word of the state: Made or BadPool. */
void ghazfulit_make(uint32_t k, uint32_t n, uint32_t *state, uint32_t *words, size_t length, uint32_t *answer);

/* Opens the words as a pool of n pages of width k, which may come from anywhere, and writes every word of the state: Opened, or BadPool,
 * BadPageInPool, BadTree in this order. It is Opened exactly if the pages form the tree from page 0, no page hangs in two places, no leaf
 * has key 0, and every other page is all zeros. Then every slot is closed, and operations are begun as in a pool that was made; else every
 * word of the state is 0. The pool is only read. */
void ghazfulit_open(uint32_t k, uint32_t n, uint32_t *state, const uint32_t *words, size_t length, uint32_t *answer);

/* Begins an operation in a closed slot: Begun, or BadKind, BadState, BadSlot, SlotBusy, BadKey in this order. The information
 * counts for an insertion and a regrading only. Key 0 is that of a blank tag, and no lot's: only a Next may begin with it, and asks for
 * the first lot of all. */
void ghazfulit_begin(uint32_t *state, uint32_t slot, uint32_t kind, uint32_t key, uint32_t information, uint32_t *answer);

/* Takes one lock more, if it is to be had, and does what follows: the answers 32 to 40 and 44 to 46, or BadState, BadPool,
 * BadSlot, SlotIdle, Damaged in this order, but that Waiting comes before Damaged. GHAZFULIT_ENDS says which of them close the
 * slot. */
void ghazfulit_step(uint32_t *state, uint32_t *words, size_t length, uint32_t slot, uint32_t *answer);

/* Says who holds a page: Reported, or BadState, BadPage. */
void ghazfulit_report(const uint32_t *state, uint32_t page, uint32_t *answer);

/* The version of the archive, to be compared with GHAZFULIT_VERSION. */
uint32_t ghazfulit_version(void);

#ifdef __cplusplus
}
#endif

#endif
