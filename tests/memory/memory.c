/* What memory the fourteen calls use beside what they are lent, with four houses and with the most, on an empty book and on a full one, and
 * with four lines and with the most, on a roll with two lines in use and on one with a single line free: how deep each goes into the stack,
 * with each of its answers. The book, the roll and the totals each stand against a wall, once by the first byte and once by the last; and
 * where a call is to change no byte of one, it can't be written.
 *
 * Prints a row for each call and answer, with the bytes of stack that it takes below its caller, on an empty book and on a full one, or on
 * either roll. A call that is answered otherwise, goes deeper than DEEPEST, or not as deep in one book as in another, is told, and the
 * status is 1. One that touches a wall, or writes where it may not, ends the program: the last row then names it. */
#include "grassmunch.h"

#include <stdio.h>
#include <string.h>
#include <sys/mman.h>
#include <unistd.h>

enum { FEW_HOUSES = 4, FEW_LINES = 4, DEEPEST = 768, SEASON = 2026, DOWN = 0, LIMIT = 2 };
_Static_assert(DEEPEST < 21 * (2 * GM_MOST_HOUSES + 3), "the slots of one entry are more than a call may take");
_Static_assert((int)FEW_LINES == (int)FEW_HOUSES, "what is told of few houses is told of few lines");

static int wrong;

/* Tells it at once, so that it is told if the program is ended. */
static void tell(const char *text) {
    if (write(1, text, strlen(text)) < 0) {
        _exit(2);
    }
}

/* ---- the book, the roll and the totals, and a wall on either side of the room of each */

/* A wall is as long as the largest page of any machine, and a room a number of such pages. One line more than the most has room. */
enum { WALL = 65536, ROOM = (GM_LONGEST_BOOK / WALL + 1) * WALL };
enum { ROLL_ROOM = (20 * (GM_MOST_LINES + 1) / WALL + 1) * WALL, TOTALS_ROOM = WALL };
static uint8_t ground[ROOM + ROLL_ROOM + TOTALS_ROOM + 5 * WALL], *room, *roll_room, *totals_room;
static uint8_t *book;
static size_t len;
static gm_line *roll;
static size_t lent; /* lines */
static gm_totals *totals;

static void allow(uint8_t *from, size_t size, int allowed) {
    if (mprotect(from, size, allowed) != 0) {
        tell("no wall can be built\n");
        _exit(2);
    }
}

/* A wall, and behind it a room. */
static uint8_t *build_wall(uint8_t *at) {
    allow(at, WALL, PROT_NONE);
    return at + WALL;
}

static void build_walls(void) {
    room = build_wall(ground + (WALL - (uintptr_t)ground % WALL) % WALL);
    roll_room = build_wall(room + ROOM);
    totals_room = build_wall(roll_room + ROLL_ROOM);
    build_wall(totals_room + TOTALS_ROOM);
}

/* ---- the painted stack */

enum { PAINT = 0xA5 };
static uint8_t stack[2 * ROOM];
static const uint8_t *caller;

/* Makes a call on the painted stack. How many bytes it went below its caller. */
static size_t depth_of(void (*make)(void)) {
    uint8_t *top = stack + sizeof stack;
    top -= (uintptr_t)top % 16;
    memset(stack, PAINT, sizeof stack);
    __asm__ volatile("movq %%rsp, %%rbx\n\tmovq %0, %%rsp\n\tcallq *%1\n\tmovq %%rbx, %%rsp"
                     :
                     : "r"(top), "r"(make)
                     : "rax", "rbx", "rcx", "rdx", "rsi", "rdi", "r8", "r9", "r10", "r11", "xmm0", "xmm1", "xmm2", "xmm3", "xmm4",
                       "xmm5", "xmm6", "xmm7", "xmm8", "xmm9", "xmm10", "xmm11", "xmm12", "xmm13", "xmm14", "xmm15", "cc", "memory");
    const uint8_t *lowest = stack;
    while (*lowest == PAINT) {
        lowest++;
    }
    return (size_t)(caller - lowest);
}

/* ---- the fourteen calls, with these arguments */

static uint32_t n, own, season, house, sender, number;
static uint8_t kind, declaration[GM_DECLARATION_BYTES], sheet[GM_SHEET_BYTES], message[GM_MESSAGE_BYTES];
static size_t sheet_len, message_len, cut_off;
static gm_line line;
static uint32_t lot;
static uint8_t answer;

/* The caller notes how far down its own stack goes; what it keeps after the call makes it stay. */
#define CALL(name, gives)                                                                                                                    \
    static void name(void) {                                                                                                                 \
        __asm__ volatile("movq %%rsp, %0" : "=m"(caller));                                                                                   \
        answer = (gives);                                                                                                                    \
    }
CALL(length, gm_length(n, GM_MOST_NUMBERS).answer)
CALL(opening, gm_open(book, len, n, GM_MOST_NUMBERS, own, DOWN, LIMIT, season, sheet, sheet_len))
CALL(publishing, gm_publish(book, len, number, declaration).answer)
CALL(receiving, gm_receive(book, len, house, message, message_len).answer)
CALL(by_entry, gm_receive_entry(book, len, house, message, message_len).answer)
CALL(returning, gm_return(book, len).answer)
CALL(sent, gm_sent(book, len, kind, sender, number).answer)
CALL(waiting, gm_waiting(book, len).answer)
CALL(judging, gm_judge(sheet, sheet_len, declaration))
CALL(writing, gm_write(kind, season, sender & 0xFF, number & 0xFF, declaration).answer)
CALL(reading, gm_read(message, message_len).answer)
CALL(lining, gm_roll_line(declaration).lot != 77)
CALL(entering, gm_roll_insert(roll, lent, totals, line))
CALL(striking, gm_roll_strike(roll, lent, totals, lot))

/* ---- what a row changes in a book and in arguments that are all in order: docs/BOOK.md, "The slots of an entry" */

enum { SLOT = 1 + GM_DECLARATION_BYTES };

static uint8_t *slot(size_t place) { return book + 31 + n + SLOT * place; }

/* A slot of the entry that is named. */
static uint8_t *in_entry(size_t place) { return slot(GM_MOST_NUMBERS + (number * n + sender) * (2 * n + 3) + place); }

/* The slot for a message of this kind from this house. */
static uint8_t *heard_slot(void) { return in_entry(kind == GM_SEND ? 0 : 1 + house + (kind == GM_READY ? n : 0)); }

static void fill(uint8_t *at) {
    at[0] = 1;
    memcpy(at + 1, declaration, GM_DECLARATION_BYTES);
}

static void clear(uint8_t *at) { memset(at, 0, SLOT); }

static void nothing(void) {}
static void one_house_more(void) { n = GM_MOST_HOUSES + 1; }
static void no_legal_book(void) { book[len - SLOT] = 2; } /* the last slot, which is of the entry that is named */
static void no_legal_head(void) { book[30 + n] = LIMIT + 1; }
static void short_book(void) { len--; }
static void short_sheet(void) { sheet_len--; }
static void cut(void) { cut_off = 1; }
static void other_season(void) { season++; }
static void other_house(void) { house = 0; }
static void no_such_house(void) { house = n; }
static void no_such_sender(void) { sender = n; }
static void no_such_number(void) { number = GM_MOST_NUMBERS; }
static void no_such_own(void) { own = n; }
static void too_heavy(void) { declaration[11]++; }
static void not_published(void) { clear(slot(number)); }
static void published(void) { fill(slot(number)); }
static void not_heard(void) { clear(heard_slot()); }
static void spoilt_elsewhere(void) {
    clear(heard_slot());
    slot(0)[0] = 2;
    in_entry(0)[-SLOT] = 2;
}
static void heard(void) { fill(heard_slot()); }
static void helped(void) { book[31 + house] = LIMIT; }
static void heard_otherwise(void) {
    heard();
    heard_slot()[SLOT - 1] ^= 1;
}
static void marks_due(void) {
    not_heard();
    clear(in_entry(1 + 2 * n));
    clear(in_entry(2 + 2 * n));
}
static void hangs(void) {
    fill(in_entry(0));
    clear(in_entry(2 + 2 * n));
}

/* ---- what a row changes in a roll and totals that are sound: the lots are 2, 4, 6 and so on */

enum { KILOGRAMS = 800, SEVENTEEN = 0x418C0000, HALF = 0x3F000000, NOT_FINITE = 0x7FC00000 };

/* So many lines in use, the highest moisture in the first; the free lines hold what no line in use may hold. */
static void lay_lines(uint32_t count) {
    memset(roll, 0xFF, lent * sizeof *roll);
    for (uint32_t i = 0; i < count; i++) {
        roll[i] = (gm_line){2 * i + 2, 40, KILOGRAMS, i == 0 ? SEVENTEEN : HALF, HALF};
    }
    *totals = (gm_totals){(uint64_t)KILOGRAMS * count, count, SEVENTEEN, 1};
}

static gm_line *last_line(void) { return &roll[totals->lines - 1]; }

static void in_front(void) { line.lot = 1; }
static void in_the_middle(void) { line.lot = roll[totals->lines / 2].lot - 1; }
static void at_the_end(void) { line.lot = last_line()->lot + 1; }
static void highest(void) { line.moisture = SEVENTEEN + 1; }
static void no_line_free(void) { lay_lines(lent & UINT32_MAX); }
static void lot_there(void) { line.lot = last_line()->lot; }
static void not_finite(void) { line.conductivity = NOT_FINITE; }
static void lot_twice(void) { last_line()->lot -= 2; }
static void not_finite_there(void) { last_line()->conductivity = NOT_FINITE; }
static void more_kilograms(void) { totals->kilograms++; }
static void not_measured(void) { totals->measured = 0; }
static void more_than_lent(void) { totals->lines = lent + 1; }
static void too_long(void) {
    size_t more = GM_MOST_LINES + 1 - lent;
    roll -= (uint8_t *)roll == roll_room ? 0 : more;
    lent += more;
    lay_lines(2);
}
static void the_first(void) { lot = roll[0].lot; }
static void the_middle(void) { lot = roll[totals->lines / 2].lot; }
static void the_last(void) { lot = last_line()->lot; }
static void no_such_lot(void) { lot = last_line()->lot + 1; }

/* ---- the rows */

static const struct row {
    const char *name;
    void (*make)(void);
    uint8_t kind, answer;
    void (*change)(void);
} rows[] = {
    {"length 0", length, 0, GM_ACCEPTED, nothing},
    {"length 9", length, 0, GM_NOT_ALLOWED, one_house_more},
    {"opening 0", opening, 0, GM_ACCEPTED, nothing},
    {"opening 9", opening, 0, GM_NOT_ALLOWED, no_such_own},
    {"opening 10", opening, 0, GM_SHEET_NOT_LEGAL, short_sheet},
    {"opening 11", opening, 0, GM_WRONG_LENGTH, short_book},
    {"publishing 0", publishing, 0, GM_ACCEPTED, not_published},
    {"publishing 1, the last slot", publishing, 0, GM_NO_LEGAL_BOOK, no_legal_book},
    {"publishing 1, the length", publishing, 0, GM_NO_LEGAL_BOOK, short_book},
    {"publishing 4", publishing, 0, GM_NOT_IN_BOOK, no_such_number},
    {"publishing 5", publishing, 0, GM_NOT_PLAUSIBLE, too_heavy},
    {"publishing 8", publishing, 0, GM_ALREADY_PUBLISHED, published},
    {"receiving 0, SEND", receiving, GM_SEND, GM_ACCEPTED, not_heard},
    {"receiving 0, ECHO", receiving, GM_ECHO, GM_ACCEPTED, not_heard},
    {"receiving 0, ECHO, a mark due", receiving, GM_ECHO, GM_ACCEPTED, marks_due},
    {"receiving 0, READY", receiving, GM_READY, GM_ACCEPTED, not_heard},
    {"receiving 0, READY, both marks due", receiving, GM_READY, GM_ACCEPTED, marks_due},
    {"receiving 0, a request", receiving, GM_REQUEST, GM_ACCEPTED, nothing},
    {"receiving 1, the last slot", receiving, GM_ECHO, GM_NO_LEGAL_BOOK, no_legal_book},
    {"receiving 1, the length", receiving, GM_ECHO, GM_NO_LEGAL_BOOK, short_book},
    {"receiving 2", receiving, GM_ECHO, GM_MALFORMED, cut},
    {"receiving 2, a request", receiving, GM_REQUEST, GM_MALFORMED, cut},
    {"receiving 3", receiving, GM_ECHO, GM_OTHER_SEASON, other_season},
    {"receiving 3, a request", receiving, GM_REQUEST, GM_OTHER_SEASON, other_season},
    {"receiving 4, the house", receiving, GM_ECHO, GM_NOT_IN_BOOK, no_such_house},
    {"receiving 4, the sender", receiving, GM_ECHO, GM_NOT_IN_BOOK, no_such_sender},
    {"receiving 4, the number", receiving, GM_ECHO, GM_NOT_IN_BOOK, no_such_number},
    {"receiving 4, a request", receiving, GM_REQUEST, GM_NOT_IN_BOOK, no_such_house},
    {"receiving 5", receiving, GM_ECHO, GM_NOT_PLAUSIBLE, too_heavy},
    {"receiving 6", receiving, GM_SEND, GM_NOT_FROM_SENDER, other_house},
    {"receiving 7, SEND", receiving, GM_SEND, GM_ALREADY_ACCEPTED, heard},
    {"receiving 7, ECHO", receiving, GM_ECHO, GM_ALREADY_ACCEPTED, heard},
    {"receiving 7, READY", receiving, GM_READY, GM_ALREADY_ACCEPTED, heard},
    {"receiving 13, SEND", receiving, GM_SEND, GM_CONFLICT, heard_otherwise},
    {"receiving 13, ECHO", receiving, GM_ECHO, GM_CONFLICT, heard_otherwise},
    {"receiving 13, READY", receiving, GM_READY, GM_CONFLICT, heard_otherwise},
    {"receiving 14, a request", receiving, GM_REQUEST, GM_HELPED_ENOUGH, helped},
    {"by entry 0, SEND", by_entry, GM_SEND, GM_ACCEPTED, not_heard},
    {"by entry 0, ECHO", by_entry, GM_ECHO, GM_ACCEPTED, not_heard},
    {"by entry 0, ECHO, a mark due", by_entry, GM_ECHO, GM_ACCEPTED, marks_due},
    {"by entry 0, READY", by_entry, GM_READY, GM_ACCEPTED, not_heard},
    {"by entry 0, READY, both marks due", by_entry, GM_READY, GM_ACCEPTED, marks_due},
    {"by entry 0, SEND, spoilt elsewhere", by_entry, GM_SEND, GM_ACCEPTED, spoilt_elsewhere},
    {"by entry 0, ECHO, spoilt elsewhere", by_entry, GM_ECHO, GM_ACCEPTED, spoilt_elsewhere},
    {"by entry 0, READY, spoilt elsewhere", by_entry, GM_READY, GM_ACCEPTED, spoilt_elsewhere},
    {"by entry 0, a request", by_entry, GM_REQUEST, GM_ACCEPTED, nothing},
    {"by entry 0, a request, the entry spoilt", by_entry, GM_REQUEST, GM_ACCEPTED, no_legal_book},
    {"by entry 1, the head", by_entry, GM_ECHO, GM_NO_LEGAL_BOOK, no_legal_head},
    {"by entry 1, the head, a request", by_entry, GM_REQUEST, GM_NO_LEGAL_BOOK, no_legal_head},
    {"by entry 1, the entry's last slot", by_entry, GM_ECHO, GM_NO_LEGAL_BOOK, no_legal_book},
    {"by entry 1, the length", by_entry, GM_ECHO, GM_NO_LEGAL_BOOK, short_book},
    {"by entry 2", by_entry, GM_ECHO, GM_MALFORMED, cut},
    {"by entry 2, a request", by_entry, GM_REQUEST, GM_MALFORMED, cut},
    {"by entry 3", by_entry, GM_ECHO, GM_OTHER_SEASON, other_season},
    {"by entry 3, a request", by_entry, GM_REQUEST, GM_OTHER_SEASON, other_season},
    {"by entry 4, the house", by_entry, GM_ECHO, GM_NOT_IN_BOOK, no_such_house},
    {"by entry 4, the sender", by_entry, GM_ECHO, GM_NOT_IN_BOOK, no_such_sender},
    {"by entry 4, the number", by_entry, GM_ECHO, GM_NOT_IN_BOOK, no_such_number},
    {"by entry 4, a request", by_entry, GM_REQUEST, GM_NOT_IN_BOOK, no_such_house},
    {"by entry 5", by_entry, GM_ECHO, GM_NOT_PLAUSIBLE, too_heavy},
    {"by entry 6", by_entry, GM_SEND, GM_NOT_FROM_SENDER, other_house},
    {"by entry 7, SEND", by_entry, GM_SEND, GM_ALREADY_ACCEPTED, heard},
    {"by entry 7, ECHO", by_entry, GM_ECHO, GM_ALREADY_ACCEPTED, heard},
    {"by entry 7, READY", by_entry, GM_READY, GM_ALREADY_ACCEPTED, heard},
    {"by entry 13, SEND", by_entry, GM_SEND, GM_CONFLICT, heard_otherwise},
    {"by entry 13, ECHO", by_entry, GM_ECHO, GM_CONFLICT, heard_otherwise},
    {"by entry 13, READY", by_entry, GM_READY, GM_CONFLICT, heard_otherwise},
    {"by entry 14, a request", by_entry, GM_REQUEST, GM_HELPED_ENOUGH, helped},
    {"a return 0", returning, 0, GM_ACCEPTED, nothing},
    {"a return 1", returning, 0, GM_NO_LEGAL_BOOK, no_legal_book},
    {"sent 0, SEND", sent, GM_SEND, GM_ACCEPTED, nothing},
    {"sent 0, ECHO", sent, GM_ECHO, GM_ACCEPTED, nothing},
    {"sent 0, READY", sent, GM_READY, GM_ACCEPTED, nothing},
    {"sent 1", sent, GM_READY, GM_NO_LEGAL_BOOK, no_legal_book},
    {"sent 2", sent, GM_REQUEST, GM_MALFORMED, nothing},
    {"sent 4, the sender", sent, GM_READY, GM_NOT_IN_BOOK, no_such_sender},
    {"sent 4, the number", sent, GM_READY, GM_NOT_IN_BOOK, no_such_number},
    {"waiting 0", waiting, 0, GM_ACCEPTED, nothing},
    {"waiting 0, the last entry", waiting, 0, GM_ACCEPTED, hangs},
    {"waiting 1", waiting, 0, GM_NO_LEGAL_BOOK, no_legal_book},
    {"judging 0", judging, 0, GM_ACCEPTED, nothing},
    {"judging 5", judging, 0, GM_NOT_PLAUSIBLE, too_heavy},
    {"judging 10", judging, 0, GM_SHEET_NOT_LEGAL, short_sheet},
    {"writing 0", writing, GM_ECHO, GM_ACCEPTED, nothing},
    {"writing 2", writing, GM_REQUEST, GM_MALFORMED, nothing},
    {"reading 0", reading, GM_ECHO, GM_ACCEPTED, nothing},
    {"reading 0, a request", reading, GM_REQUEST, GM_ACCEPTED, nothing},
    {"reading 2", reading, GM_ECHO, GM_MALFORMED, cut},
    {"a line", lining, 0, GM_ACCEPTED, nothing},
    {"entering 0, the front", entering, 0, GM_ACCEPTED, in_front},
    {"entering 0, the middle", entering, 0, GM_ACCEPTED, in_the_middle},
    {"entering 0, the end", entering, 0, GM_ACCEPTED, at_the_end},
    {"entering 0, the highest moisture", entering, 0, GM_ACCEPTED, highest},
    {"entering 20, a roll too long", entering, 0, GM_ROLL_NOT_SOUND, too_long},
    {"entering 20, more lines than are lent", entering, 0, GM_ROLL_NOT_SOUND, more_than_lent},
    {"entering 20, the last lot twice", entering, 0, GM_ROLL_NOT_SOUND, lot_twice},
    {"entering 20, the last reading", entering, 0, GM_ROLL_NOT_SOUND, not_finite_there},
    {"entering 20, the kilograms", entering, 0, GM_ROLL_NOT_SOUND, more_kilograms},
    {"entering 20, the mark", entering, 0, GM_ROLL_NOT_SOUND, not_measured},
    {"entering 21", entering, 0, GM_READING_NOT_FINITE, not_finite},
    {"entering 22", entering, 0, GM_LOT_ALREADY_THERE, lot_there},
    {"entering 23", entering, 0, GM_NO_LINE_FREE, no_line_free},
    {"striking 0, the front", striking, 0, GM_ACCEPTED, the_first},
    {"striking 0, the middle", striking, 0, GM_ACCEPTED, the_middle},
    {"striking 0, the end", striking, 0, GM_ACCEPTED, the_last},
    {"striking 20, a roll too long", striking, 0, GM_ROLL_NOT_SOUND, too_long},
    {"striking 20, more lines than are lent", striking, 0, GM_ROLL_NOT_SOUND, more_than_lent},
    {"striking 20, the last lot twice", striking, 0, GM_ROLL_NOT_SOUND, lot_twice},
    {"striking 20, the last reading", striking, 0, GM_ROLL_NOT_SOUND, not_finite_there},
    {"striking 20, the kilograms", striking, 0, GM_ROLL_NOT_SOUND, more_kilograms},
    {"striking 20, the mark", striking, 0, GM_ROLL_NOT_SOUND, not_measured},
    {"striking 24", striking, 0, GM_LOT_NOT_ON_ROLL, no_such_lot},
};

/* A book of the last of so many houses, against one wall or the other, and arguments that name its last entry. */
static void lay(uint32_t houses, bool is_full, bool at_end) {
    static const gm_declaration lot77 = {77, 40, 800, 17.5F, 0.5F};
    n = houses;
    own = house = sender = n - 1;
    number = GM_MOST_NUMBERS - 1;
    season = SEASON;
    gm_declaration_to_bytes(declaration, &lot77);
    gm_sheet_to_bytes(sheet, 20, gm_gate_at_most(20.0F), gm_gate_between(0.125F, 1.0F));
    sheet_len = sizeof sheet;
    cut_off = 0;
    len = gm_length(n, GM_MOST_NUMBERS).length;
    book = at_end ? room + ROOM - len : room;
    opening();
    for (uint8_t *at = slot(0); is_full && at < book + len; at += SLOT) {
        fill(at);
    }
}

/* A roll of so many lines with two in use, or all but one; and totals, against one wall or the other. A line to enter at its front. */
static void lay_roll(size_t lines, bool is_full, bool at_end) {
    static const gm_line before_all = {1, 40, KILOGRAMS, HALF, HALF};
    lent = lines;
    roll = (void *)(at_end ? roll_room + ROLL_ROOM - lent * sizeof *roll : roll_room);
    totals = (void *)(at_end ? totals_room + TOTALS_ROOM - sizeof *totals : totals_room);
    lay_lines(is_full ? (lent - 1) & UINT32_MAX : 2);
    line = before_all;
    lot = roll[0].lot;
}

/* The message that the arguments name, or the request. */
static void lay_message(void) {
    gm_written written = gm_write(kind, season, sender & 0xFF, number & 0xFF, declaration);
    memcpy(message, written.message, sizeof message);
    message_len = GM_MESSAGE_BYTES - cut_off;
    if (kind == GM_REQUEST) {
        const uint8_t head[] = {1, 0, 1, GM_REQUEST, 2, 0, 4};
        memcpy(message, head, sizeof head);
        gm_put_word(message + sizeof head, season);
        message_len = GM_REQUEST_BYTES - cut_off;
    }
}

static void allow_all(int on_book, int on_roll) {
    allow(room, ROOM, on_book);
    allow(roll_room, ROLL_ROOM, on_roll);
    allow(totals_room, TOTALS_ROOM, on_roll);
}

/* Makes the call of a row once; how deep it went. */
static size_t try_row(const struct row *row, uint32_t houses, bool is_full, bool at_end) {
    bool on_book = row->make == opening || row->make == publishing || row->make == receiving || row->make == by_entry;
    bool on_roll = row->make == entering || row->make == striking, accepted = row->answer == GM_ACCEPTED;
    allow_all(PROT_READ | PROT_WRITE, PROT_READ | PROT_WRITE);
    lay(houses, is_full, at_end);
    lay_roll(houses == GM_MOST_HOUSES ? GM_MOST_LINES : FEW_LINES, is_full, at_end);
    kind = row->kind;
    row->change();
    lay_message();
    allow_all(on_book && accepted ? PROT_READ | PROT_WRITE : PROT_READ, on_roll && accepted ? PROT_READ | PROT_WRITE : PROT_READ);
    size_t depth = depth_of(row->make);
    if (answer != row->answer) {
        tell(" another answer");
        wrong = 1;
    }
    return depth;
}

/* The same depth with few houses and with the most, and with few lines and the most, against either wall. */
static void try_depth(const struct row *row, bool is_full) {
    char text[128];
    size_t few = try_row(row, FEW_HOUSES, is_full, false);
    size_t most = try_row(row, GM_MOST_HOUSES, is_full, false);
    snprintf(text, sizeof text, " %zu", most);
    tell(text);
    bool is_same = few == most && try_row(row, FEW_HOUSES, is_full, true) == few && try_row(row, GM_MOST_HOUSES, is_full, true) == few;
    if (!is_same || most < sizeof(void *) || most > DEEPEST) {
        snprintf(text, sizeof text, " %s, and %zu with %d houses or lines", is_same ? "not in bounds" : "not the same", few, FEW_HOUSES);
        tell(text);
        wrong = 1;
    }
}

int main(void) {
    build_walls();
    for (size_t i = 0; i < sizeof rows / sizeof *rows; i++) {
        tell(rows[i].name);
        tell(":");
        try_depth(&rows[i], false);
        try_depth(&rows[i], true);
        tell("\n");
    }
    return wrong;
}
