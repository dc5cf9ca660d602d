/* The fourteen calls of the house book and the lot roll, for C11 and C++17. docs/HOUSE.md says which call when; docs/BOOK.md gives the
 * bytes of a book. After the fourteen calls come helpers that stand here alone: numbers and floats into bytes and back, a sentence for an
 * answer, a walk, a test of a roll that was stored.
 *
 * Sentences in quotes are document 01's, or request 2026-10's where they speak of f and d, a return, a request or help, or request
 * 2026-05's where they speak of the roll and the totals.
 * For every call:
 *   - A book, a sheet and a message are lent as a pointer and a length, and a roll as a pointer and a number of lines. A null pointer is
 *     allowed with length 0.
 *   - A declaration is a pointer to 20 readable bytes, and never null. Totals are lent as a pointer to one gm_totals, and never null.
 *   - The lent book overlaps no other argument. The lent roll and totals do not overlap.
 *   - "Every refusal leaves the lent buffer byte for byte and carries no message and no delivery": the lent roll and totals likewise. What
 *     is absent is zeros.
 *   - A number wider than 32 bits is refused by the caller and not cut: gm_house does that.
 *   - bool is one byte, 0 or 1. Padding holds anything: compare fields, and not whole structs. gm_line and gm_totals have none.
 * Header and archive come from one build: the archive fills the structs that stand here. */
#ifndef GRASSMUNCH_H
#define GRASSMUNCH_H

#include <stdbool.h>
#include <stddef.h>
#include <stdint.h>
#include <string.h>

/* The version: the first number changes where the bytes of a book or a message change, or a call. A season is finished with the first
 * number that it was opened with, or with one that goes with it: 3 goes with 2, 6 with 5 in a season of at most 16 houses, and 4 with no
 * other (CHANGELOG.md). */
#define GM_VERSION "6.2.0"
#define GM_VERSION_MAJOR 6
#define GM_VERSION_MINOR 2
#define GM_VERSION_PATCH 0

#ifdef __cplusplus
extern "C" {
#define GM_ASSERT(truth, sentence) static_assert(truth, sentence)
#else
#define GM_ASSERT(truth, sentence) _Static_assert(truth, sentence)
#endif

/* The most houses, and the most numbers of each: n is 1 to 31, S is 1 to 4. The most lines of a roll. Then sizes in bytes. The longest book
 * is that of the most houses with the most numbers: 31 bytes, one for each house, and 21 for each slot; 169,406 in all, too many for the
 * stack of many a thread, as are the 81,920 of the longest roll. gm_length gives each book's own length. */
enum {
    GM_MOST_HOUSES = 31,
    GM_MOST_NUMBERS = 4,
    GM_MOST_LINES = 4096,
    GM_DECLARATION_BYTES = 20,
    GM_SHEET_BYTES = 22,
    GM_MESSAGE_BYTES = 36,
    GM_REQUEST_BYTES = 11,
    GM_TOTALS_BYTES = 24,
    GM_LONGEST_BOOK = 31 + GM_MOST_HOUSES + 21 * (GM_MOST_NUMBERS + GM_MOST_NUMBERS * GM_MOST_HOUSES * (2 * GM_MOST_HOUSES + 3))
};

/* "Where several apply, the first in the call's order is given." */
enum gm_answer {
    GM_ACCEPTED = 0,            /* accepted */
    GM_NO_LEGAL_BOOK = 1,       /* the lent bytes are no legal book */
    GM_MALFORMED = 2,           /* malformed message */
    GM_OTHER_SEASON = 3,        /* season differs from the book's */
    GM_NOT_IN_BOOK = 4,         /* house number, sender or entry number not in the book */
    GM_NOT_PLAUSIBLE = 5,       /* not plausible */
    GM_NOT_FROM_SENDER = 6,     /* SEND not from the entry's sender */
    GM_ALREADY_ACCEPTED = 7,    /* this kind was already accepted from this house on this entry, with the same declaration */
    GM_ALREADY_PUBLISHED = 8,   /* already published at this number */
    GM_NOT_ALLOWED = 9,         /* n, S, own number, f or d not allowed */
    GM_SHEET_NOT_LEGAL = 10,    /* sheet not legal */
    GM_WRONG_LENGTH = 11,       /* buffer length is not the book's length */
    GM_CONFLICT = 13,           /* this kind was already accepted from this house on this entry, with a different declaration */
    GM_HELPED_ENOUGH = 14,      /* this asker was helped d times already */
    GM_ROLL_NOT_SOUND = 20,     /* a roll too long, or totals that aren't those of the first lines of an ordered roll of finite readings */
    GM_READING_NOT_FINITE = 21, /* a reading not finite */
    GM_LOT_ALREADY_THERE = 22,  /* a lot already there */
    GM_NO_LINE_FREE = 23,       /* no line free */
    GM_LOT_NOT_ON_ROLL = 24     /* a lot not on the roll */
};

/* "Tag 1, length 1: kind, 1 SEND, 2 ECHO, 3 READY." "A request is kind 9, tag 1 and then tag 2 with the season alone": 11 bytes. */
enum gm_kind { GM_SEND = 1, GM_ECHO = 2, GM_READY = 3, GM_REQUEST = 9 };

/* A gate's kind byte. "A gate is one of three kinds: open, at most a limit, or between a low and a high limit."
 * A sheet is 22 bytes, big-endian: the cap (4); then for moisture and for conductivity a kind (1), a low limit (4) and a high
 * limit (4) as the bits of a binary32. At most has its limit as the high one; a limit that the kind does not use is zeros, and minus
 * zero there is no sheet's form.
 * "Limits are binary32, none below zero, and count as inside; below zero is what compares below zero, so minus zero isn't." "A sheet is
 * legal when no limit is NaN, infinite or below zero and no low exceeds its high." Judging and opening answer 10 to any other, and a
 * book that holds one is no legal book: answer 1 from every call that takes it. */
enum gm_gate { GM_GATE_OPEN = 0, GM_GATE_AT_MOST = 1, GM_GATE_BETWEEN = 2 };

typedef struct {
    uint8_t answer;
    uint64_t length; /* 0 at answer 9 */
} gm_length_answer;

typedef struct {
    uint8_t answer;
    bool gives;              /* a message is given: it goes to all n houses, its own included */
    uint8_t message[36];     /* zeros where none is given */
    bool delivers;           /* a declaration is delivered */
    uint8_t declaration[20]; /* zeros where none is delivered */
    bool helps;              /* a request was accepted: what gm_sent gives goes again to the asker alone */
} gm_outcome;

typedef struct {
    uint8_t answer;
    uint8_t request[11]; /* it goes to all n houses, its own included; zeros at answer 1 */
} gm_return_answer;

typedef struct {
    uint8_t answer;
    bool gives;          /* this house sent it; false is the plain none */
    uint8_t message[36]; /* zeros where none was sent */
} gm_sent_answer;

typedef struct {
    uint8_t answer;
    uint8_t message[36]; /* zeros at answer 2 */
} gm_written;

typedef struct {
    uint8_t answer;
    uint8_t kind; /* this and all below: zero at answer 2 */
    uint32_t season;
    uint8_t sender; /* this and all below: zero in a request */
    uint8_t number;
    uint8_t declaration[20];
} gm_read_answer;

typedef struct {
    uint8_t answer;
    bool waits;     /* an entry waits; false is the plain none */
    uint8_t number; /* zero where none waits */
    uint8_t sender;
} gm_waiting_answer;

/* A lot's line on the roll: what a declaration says, as five numbers, the readings as the bits of a binary32. */
typedef struct {
    uint32_t lot;
    uint32_t colonies;
    uint32_t kilograms;
    uint32_t moisture;
    uint32_t conductivity;
} gm_line;

/* "The season's totals": of the lines in use, which are the first ones of a roll. Those of an empty roll are zeros. */
typedef struct {
    uint64_t kilograms; /* the sum of theirs */
    size_t lines;       /* how many are in use; the lines after them are free */
    uint32_t moisture;  /* the highest one's bits: "Among equal moistures the lowest lot's bits stand." 0 where none is in use */
    uint32_t measured;  /* 1 where a line is in use; 0 where none is, so that there is no highest moisture */
} gm_totals;

/* "A public answer gives that length, or answer 9." Answers 9, else 0. */
gm_length_answer gm_length(uint32_t n, uint32_t s);

/* "Opening writes the whole buffer: nothing heard, sent, delivered or published." "Opening takes f (0 to 4) and a recovery limit d
 * (0 to 8); t is the largest that fits; else answer 9." So 2f is below n. Answers 9, 10, 11, else 0. */
uint8_t gm_open(uint8_t *book, size_t len, uint32_t n, uint32_t s, uint32_t own, uint32_t f, uint32_t d, uint32_t season,
                const uint8_t *sheet, size_t sheet_len);

/* "Publishing marks the own entry and gives a SEND." Answers 1, 4, 5, 8, else 0. */
gm_outcome gm_publish(uint8_t *book, size_t len, uint32_t number, const uint8_t declaration[20]);

/* "An accepted SEND is recorded and gives an ECHO of it." An ECHO or READY is recorded, and may give a READY; a READY may deliver.
 * house is the house that the message came from. Answers 1, 2, 3, 4, 5, 6, then 7 or 13, else 0: where this kind was accepted from
 * this house on this entry, the same 20 bytes are a repeat, 7, and others a conflict, 13.
 * A request is counted, and helps: "a helper sends again its own messages, to the asker alone, at most d times for each asker."
 * Answers 1, 2, 3, 4, 14, else 0. */
gm_outcome gm_receive(uint8_t *book, size_t len, uint32_t house, const uint8_t *message, size_t message_len);

/* Receiving by entry, for a house that knows its book: it has opened it, or gm_waiting answered 0 to it since the house started. Of the
 * book it tests the head, and the entry that the message names, and not the rest.
 *   - The head is all that a legal book asks but its slots: n, S, own number, length, sheet, f, d, and the counts of help.
 *   - The entry is its 2n + 3 slots: the SEND, n ECHOes, n READYs, READY sent, delivered. Each is in its one form: its first byte is 1,
 *     or all 21 are zero. The slot of what this house published there is not among them.
 * On every legal book it is gm_receive: the same answer, message, delivery and help, and the same bytes afterwards. On any bytes, each byte
 * outside the named entry, and for a request outside the asker's count of help, stays as it was: other slots are neither tested nor mended.
 * Answers 1 for the head, 2, 3, 4 for the sender or the number, 1 for the entry, 4 for the house, 5, 6, then 7 or 13, else 0.
 * A request names no entry, and no slot is tested: answers 1, 2, 3, 4, 14, else 0. */
gm_outcome gm_receive_entry(uint8_t *book, size_t len, uint32_t house, const uint8_t *message, size_t message_len);

/* "On return a house sends again to all what it has sent and asks all for help": the request to ask with. Answers 1, else 0. */
gm_return_answer gm_return(const uint8_t *book, size_t len);

/* What this house sent of a kind on an entry, to be sent again: the same 36 bytes, or a plain none. Its SEND is on its own entries
 * alone. Answers 1, 2 for a kind that is not 1 to 3, 4, else 0. gm_first_sent and gm_next_sent walk over all of it. */
gm_sent_answer gm_sent(const uint8_t *book, size_t len, uint8_t kind, uint32_t sender, uint32_t number);

/* "The earliest waiting entry is the one, lowest number first and then lowest sender, with a SEND heard and nothing delivered; or a
 * plain none; or answer 1." Answers 1, else 0. */
gm_waiting_answer gm_waiting(const uint8_t *book, size_t len);

/* "Judging takes a sheet and a declaration and answers 10, then 5, else 0." Publishing and receiving judge alike, by the book's sheet:
 * "A declaration is plausible exactly when it has at least one colony, kilograms is at most colonies times cap (the exact product),
 * neither reading is NaN, infinite or below zero, and each reading is within its gate by float comparison. So a declaration with no
 * colonies isn't plausible, whatever its weight." One with a reading below zero isn't either, even at an open gate; minus zero passes
 * wherever zero does. No other call judges a declaration, and none judges what is recorded: a book of an earlier version that has a
 * declaration with no colonies, or with a reading below zero, is legal where its sheet is. */
uint8_t gm_judge(const uint8_t *sheet, size_t sheet_len, const uint8_t declaration[20]);

/* "The writer takes kind, season, sender, number and declaration and hands back the 36 bytes, with no lent buffer; any sender and
 * number byte is written; for another kind it answers 2 and hands back no message." Answers 2, else 0. */
gm_written gm_write(uint8_t kind, uint32_t season, uint8_t sender, uint8_t number, const uint8_t declaration[20]);

/* "Reading alone answers 2 or gives the same five things." Of a request it gives kind 9 and the season. Answers 2, else 0. */
gm_read_answer gm_read(const uint8_t *message, size_t message_len);

/* ---- the roll: "A part above the book, which sees only the book's promises."
 *
 * No call here takes a book, and none above takes a roll. The first totals.lines lines of a roll are in use, and the others are free:
 * nothing is asked of a free line, and any bytes may stand there. A house begins with totals of zeros. "From an empty roll, kilograms equal
 * the sum over lots entered less lots struck in accepted calls." No float mode of the caller changes an answer. */

/* The line of a declaration's 20 bytes, as a delivery gives them: any 20 bytes have one. */
gm_line gm_roll_line(const uint8_t declaration[20]);

/* "A delivery is entered on a roll of lot lines, lent by the caller and kept in ascending lot order, and into the season's totals, lent by
 * the caller and brought up to date in place: lines in use, kilograms (64 bits), highest moisture, or none when empty." len is the number
 * of lines that are lent, in use or free. "The roll has at most 4,096 lines." The lines behind the new one move by one; free lines after
 * the first free one stay as they are.
 * "Refused, changing neither, in this order: a roll too long, or totals that aren't those of the first lines of an ordered roll of finite
 * readings; a reading not finite; a lot already there; no line free." Answers 20, 21, 22, 23, else 0:
 *   - 20: len is above 4,096; or more lines are in use than are lent; or those in use are not in ascending lot order, each lot once; or one
 *     of their readings is NaN or infinite; or a field of the totals is not that of these lines. A reading below zero is finite.
 *   - 21: a reading of the line that is entered is NaN or infinite.
 *   - 22: a line in use has its lot. For a delivery that is entered again, as after a crash, that is in order.
 *   - 23: all lines that are lent are in use. */
uint8_t gm_roll_insert(gm_line *roll, size_t len, gm_totals *totals, gm_line line);

/* "Striking a lot not on the roll is refused after the first of these. Striking closes the gap and zeroes the line freed, which is free
 * again." Answers 20 as entering does, 24, else 0. */
uint8_t gm_roll_strike(gm_line *roll, size_t len, gm_totals *totals, uint32_t lot);

/* ---- helpers, over the C library's memcpy and memset and the calls above alone
 *
 * A float is taken by its bits: nothing here adds, compares or rounds one, so that the bytes are the same in every float mode. A NaN's
 * bits stay as they are. Whether a declaration is plausible and a sheet legal, the calls say: a reading or a limit below zero is made
 * into bytes as any other, and then answered 5 or 10. */

/* The five things of a declaration: moisture in percent, conductivity in mS/cm. */
typedef struct {
    uint32_t lot;
    uint32_t colonies; /* at least one, else it is not plausible */
    uint32_t kilograms;
    float moisture; /* this and the next: not NaN, infinite or below zero, else it is not plausible */
    float conductivity;
} gm_declaration;

/* A gate's 9 bytes in a sheet: kind, low limit, high limit. The three functions below make them. */
typedef struct {
    uint8_t bytes[9];
} gm_gate_bytes;

static inline void gm_put_word(uint8_t to[4], uint32_t word) {
    for (int place = 0; place < 4; place++) {
        to[place] = (word >> (24 - 8 * place)) & 0xFF;
    }
}

static inline uint32_t gm_get_word(const uint8_t from[4]) {
    uint32_t word = 0;
    for (int place = 0; place < 4; place++) {
        word = word << 8 | from[place];
    }
    return word;
}

/* The same in 8 bytes. */
static inline void gm_put_long(uint8_t to[8], uint64_t number) {
    for (int place = 0; place < 8; place++) {
        to[place] = (number >> (56 - 8 * place)) & 0xFF;
    }
}

static inline uint64_t gm_get_long(const uint8_t from[8]) {
    uint64_t number = 0;
    for (int place = 0; place < 8; place++) {
        number = number << 8 | from[place];
    }
    return number;
}

static inline void gm_put_float(uint8_t to[4], const float *from) {
    uint32_t bits;
    memcpy(&bits, from, sizeof bits);
    gm_put_word(to, bits);
}

static inline void gm_get_float(float *to, const uint8_t from[4]) {
    uint32_t bits = gm_get_word(from);
    memcpy(to, &bits, sizeof bits);
}

/* A declaration's 20 bytes, as gm_publish, gm_judge and gm_write take them. */
static inline void gm_declaration_to_bytes(uint8_t to[20], const gm_declaration *from) {
    gm_put_word(to, from->lot);
    gm_put_word(to + 4, from->colonies);
    gm_put_word(to + 8, from->kilograms);
    gm_put_float(to + 12, &from->moisture);
    gm_put_float(to + 16, &from->conductivity);
}

/* The five things that 20 bytes say, as a delivery gives them: any 20 bytes are a declaration. */
static inline void gm_declaration_from_bytes(gm_declaration *to, const uint8_t from[20]) {
    to->lot = gm_get_word(from);
    to->colonies = gm_get_word(from + 4);
    to->kilograms = gm_get_word(from + 8);
    gm_get_float(&to->moisture, from + 12);
    gm_get_float(&to->conductivity, from + 16);
}

/* A line's 20 bytes, which are its declaration's: gm_roll_line takes them back. */
static inline void gm_line_to_bytes(uint8_t to[20], const gm_line *from) {
    gm_put_word(to, from->lot);
    gm_put_word(to + 4, from->colonies);
    gm_put_word(to + 8, from->kilograms);
    gm_put_word(to + 12, from->moisture);
    gm_put_word(to + 16, from->conductivity);
}

/* Totals' 24 bytes, to be stored, big-endian: kilograms and lines (8 bytes each), moisture and measured (4 each). */
static inline void gm_totals_to_bytes(uint8_t to[24], const gm_totals *from) {
    gm_put_long(to, from->kilograms);
    gm_put_long(to + 8, from->lines);
    gm_put_word(to + 16, from->moisture);
    gm_put_word(to + 20, from->measured);
}

/* The totals of 24 bytes: any 24 bytes are some totals. Whether they are those of a roll, the calls say. */
static inline void gm_totals_from_bytes(gm_totals *to, const uint8_t from[24]) {
    to->kilograms = gm_get_long(from);
    to->lines = gm_get_long(from + 8);
    to->moisture = gm_get_word(from + 16);
    to->measured = gm_get_word(from + 20);
}

/* Totals of an empty roll: zeros. */
static inline gm_totals gm_empty_totals(void) {
    gm_totals totals;
    memset(&totals, 0, sizeof totals);
    return totals;
}

/* Whether a roll and totals that were stored are of each other: 20 as entering answers it, else 0. Neither changes: the line that is tried
 * has a reading that is not finite, so that it is never entered. */
static inline uint8_t gm_roll_test(gm_line *roll, size_t len, gm_totals *totals) {
    gm_line never;
    memset(&never, 0, sizeof never);
    never.moisture = 0x7FC00000;
    return gm_roll_insert(roll, len, totals, never) == GM_ROLL_NOT_SOUND ? GM_ROLL_NOT_SOUND : GM_ACCEPTED;
}

/* Between a low and a high limit; both count as inside. With a limit below zero the sheet is not legal: answer 10. */
static inline gm_gate_bytes gm_gate_between(float low, float high) {
    gm_gate_bytes gate;
    gate.bytes[0] = GM_GATE_BETWEEN;
    gm_put_float(gate.bytes + 1, &low);
    gm_put_float(gate.bytes + 5, &high);
    return gate;
}

/* At most a limit, which counts as inside. With a limit below zero the sheet is not legal: answer 10. */
static inline gm_gate_bytes gm_gate_at_most(float limit) {
    gm_gate_bytes gate = gm_gate_between(0, limit);
    gate.bytes[0] = GM_GATE_AT_MOST;
    return gate;
}

/* Any reading that is not NaN, infinite or below zero. */
static inline gm_gate_bytes gm_gate_open(void) {
    gm_gate_bytes gate = gm_gate_between(0, 0);
    gate.bytes[0] = GM_GATE_OPEN;
    return gate;
}

/* A sheet's 22 bytes, as gm_open and gm_judge take them: a cap in kilograms per colony, and a gate for each reading. */
static inline void gm_sheet_to_bytes(uint8_t to[22], uint32_t cap, gm_gate_bytes moisture, gm_gate_bytes conductivity) {
    gm_put_word(to, cap);
    memcpy(to + 4, moisture.bytes, sizeof moisture.bytes);
    memcpy(to + 13, conductivity.bytes, sizeof conductivity.bytes);
}

/* The sentence of an answer, never null. */
static inline const char *gm_answer_text(unsigned answer) {
    switch (answer) {
    case GM_ACCEPTED:
        return "accepted";
    case GM_NO_LEGAL_BOOK:
        return "the lent bytes are no legal book";
    case GM_MALFORMED:
        return "malformed message";
    case GM_OTHER_SEASON:
        return "season differs from the book's";
    case GM_NOT_IN_BOOK:
        return "house number, sender or entry number not in the book";
    case GM_NOT_PLAUSIBLE:
        return "not plausible";
    case GM_NOT_FROM_SENDER:
        return "SEND not from the entry's sender";
    case GM_ALREADY_ACCEPTED:
        return "this kind was already accepted from this house on this entry, with the same declaration";
    case GM_ALREADY_PUBLISHED:
        return "already published at this number";
    case GM_NOT_ALLOWED:
        return "n, S, own number, f or d not allowed";
    case GM_SHEET_NOT_LEGAL:
        return "sheet not legal";
    case GM_WRONG_LENGTH:
        return "buffer length is not the book's length";
    case GM_CONFLICT:
        return "this kind was already accepted from this house on this entry, with a different declaration";
    case GM_HELPED_ENOUGH:
        return "this asker was helped d times already";
    case GM_ROLL_NOT_SOUND:
        return "a roll too long, or totals that aren't those of the first lines of an ordered roll of finite readings";
    case GM_READING_NOT_FINITE:
        return "a reading not finite";
    case GM_LOT_ALREADY_THERE:
        return "a lot already there";
    case GM_NO_LINE_FREE:
        return "no line free";
    case GM_LOT_NOT_ON_ROLL:
        return "a lot not on the roll";
    default:
        return "no answer of this library";
    }
}

/* A wide house number for receiving, by entry too. One that 32 bits do not hold becomes the largest that they do, which is in no book: it
 * is refused in the call's own order, where a number cut to 32 bits might name another house. */
static inline uint32_t gm_house(uint64_t wide) {
    if (wide > UINT32_MAX) {
        return UINT32_MAX;
    }
    return wide & UINT32_MAX;
}

/* A walk over all that this house sent: lowest number first, then lowest sender, then SEND, ECHO, READY. It goes by what gm_sent
 * answers and by nothing else:
 *
 *     for (gm_walk walk = gm_first_sent(book, len); walk.sent.gives; gm_next_sent(book, len, &walk)) {
 *         carry(walk.sent.message);
 *     }
 *
 * On return each goes to all n houses, and for help to the asker alone. The walk ends at answer 4, past the last entry, or at
 * answer 1. */
typedef struct {
    gm_sent_answer sent;
    uint32_t number;
    uint32_t sender;
    uint8_t kind;
} gm_walk;

static inline void gm_next_sent(const uint8_t *book, size_t len, gm_walk *walk) {
    do {
        walk->kind++;
        if (walk->kind > GM_READY) {
            walk->kind = GM_SEND;
            walk->sender++;
        }
        walk->sent = gm_sent(book, len, walk->kind, walk->sender, walk->number);
        if (walk->sent.answer == GM_NOT_IN_BOOK && walk->sender > 0) { /* past the last sender */
            walk->sender = 0;
            walk->number++;
            walk->sent = gm_sent(book, len, walk->kind, walk->sender, walk->number);
        }
    } while (walk->sent.answer == GM_ACCEPTED && !walk->sent.gives);
}

static inline gm_walk gm_first_sent(const uint8_t *book, size_t len) {
    gm_walk walk;
    walk.number = 0;
    walk.sender = 0;
    walk.kind = 0;
    gm_next_sent(book, len, &walk);
    return walk;
}

GM_ASSERT(sizeof(bool) == 1, "bool is one byte");
GM_ASSERT(sizeof(size_t) == 8, "a length is 64 bits");
GM_ASSERT(sizeof(float) == 4, "a float is a binary32");
GM_ASSERT(sizeof(gm_gate_bytes) == 9, "gm_gate_bytes");
GM_ASSERT(sizeof(gm_length_answer) == 16 && offsetof(gm_length_answer, length) == 8, "gm_length_answer");
GM_ASSERT(sizeof(gm_outcome) == 60 && offsetof(gm_outcome, gives) == 1 && offsetof(gm_outcome, message) == 2 &&
              offsetof(gm_outcome, delivers) == 38 && offsetof(gm_outcome, declaration) == 39 &&
              offsetof(gm_outcome, helps) == 59,
          "gm_outcome");
GM_ASSERT(sizeof(gm_return_answer) == 12 && offsetof(gm_return_answer, request) == 1, "gm_return_answer");
GM_ASSERT(sizeof(gm_sent_answer) == 38 && offsetof(gm_sent_answer, gives) == 1 && offsetof(gm_sent_answer, message) == 2,
          "gm_sent_answer");
GM_ASSERT(sizeof(gm_written) == 37 && offsetof(gm_written, message) == 1, "gm_written");
GM_ASSERT(sizeof(gm_read_answer) == 32 && offsetof(gm_read_answer, kind) == 1 && offsetof(gm_read_answer, season) == 4 &&
              offsetof(gm_read_answer, sender) == 8 && offsetof(gm_read_answer, number) == 9 &&
              offsetof(gm_read_answer, declaration) == 10,
          "gm_read_answer");
GM_ASSERT(sizeof(gm_waiting_answer) == 4 && offsetof(gm_waiting_answer, waits) == 1 &&
              offsetof(gm_waiting_answer, number) == 2 && offsetof(gm_waiting_answer, sender) == 3,
          "gm_waiting_answer");
GM_ASSERT(sizeof(gm_line) == 20 && offsetof(gm_line, lot) == 0 && offsetof(gm_line, colonies) == 4 && offsetof(gm_line, kilograms) == 8 &&
              offsetof(gm_line, moisture) == 12 && offsetof(gm_line, conductivity) == 16,
          "gm_line");
GM_ASSERT(sizeof(gm_totals) == 24 && offsetof(gm_totals, kilograms) == 0 && offsetof(gm_totals, lines) == 8 &&
              offsetof(gm_totals, moisture) == 16 && offsetof(gm_totals, measured) == 20,
          "gm_totals");

#undef GM_ASSERT
#ifdef __cplusplus
}
#endif
#endif
