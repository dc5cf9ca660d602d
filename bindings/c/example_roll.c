/* Four houses in one process, as in example_house.c, that keep a roll in the place of a register: they open, publish, receive and
 * store; one loses power twice, returns and is helped, and one loses it once; another lies about what it declares, to different
 * houses and then to one, which keeps the evidence; each enters on its roll what is delivered, and strikes the liar's lot; and they
 * write an account of it.
 *
 * Each call works on a copy of the book. The copy is stored, with a delivery beside it; then the delivery is entered on a copy of the roll
 * and the totals, and these are stored; and only then does anything leave. What a house sent can be read off its book, so that no message
 * is stored: after a power cut the book says what is to be sent again, and the delivery beside it is entered again.
 * A house tests its book once, when it takes it from its file, and then receives by entry; one that it opened is legal.
 * The carrier, here the row `carried`, loses what comes to a house that is down; a house with neighbours puts its network there.
 * The one argument is the folder for the books and the rolls. */
#define _POSIX_C_SOURCE 200809L
#include "grassmunch.h"

#include <fcntl.h>
#include <stdio.h>
#include <stdlib.h>
#include <string.h>
#include <unistd.h>

/* Among four houses one may be wrong where f is 0, and none where f is 1. All four are to be up at the end, so f is 0; and each may
 * return twice, so d is 2. */
enum { HOUSES = 4, NUMBERS = 2, DOWN = 0, LIMIT = 2, SEASON = 2026, PUBLISHER = 2, NUMBER = 1, LOSES_POWER = 1, LIAR = 3 };
enum { COPIES = 128, LINES = 4, LOT_OF_LIAR = 90 };

/* Made by `declare` at the start: the lot that is published, one that weighs too much, one with no colonies, one with a reading below
 * zero, and the two of the liar. */
static uint8_t lot77[GM_DECLARATION_BYTES], heavy[GM_DECLARATION_BYTES], no_bees[GM_DECLARATION_BYTES], minus_3[GM_DECLARATION_BYTES];
static uint8_t lot90[GM_DECLARATION_BYTES], twin[GM_DECLARATION_BYTES];

/* Here a few lines are enough, and a copy may stand on the stack; a roll of GM_MOST_LINES is for the heap. */
struct roll {
    gm_line lines[LINES];
    gm_totals totals;
};

/* Its book, and the copy that a call works on, are on the heap, each as long as gm_length says: GM_LONGEST_BOOK bytes are too many for the
 * stack of many a thread. */
struct house {
    uint32_t own;
    bool up;
    size_t len;
    uint8_t *book, *worked;
    struct roll roll;
};

/* A message or a request on its way. */
struct copy {
    uint32_t from, to;
    size_t len;
    uint8_t bytes[GM_MESSAGE_BYTES];
};

static struct house houses[HOUSES];
static struct copy carried[COPIES];
static size_t sent, taken, requests, lost, deliveries;
static bool lies;
static const char *folder = ".";

static const char *kind_of(const uint8_t *bytes, size_t len) {
    switch (gm_read(bytes, len).kind) {
    case GM_SEND:
        return "SEND";
    case GM_ECHO:
        return "ECHO";
    case GM_READY:
        return "READY";
    case GM_REQUEST:
        return "a request";
    default:
        return "no message";
    }
}

static void declare(uint8_t *to, uint32_t lot, uint32_t colonies, uint32_t kilograms, float moisture) {
    gm_declaration_to_bytes(to, &(gm_declaration){.lot = lot,
                                                  .colonies = colonies,
                                                  .kilograms = kilograms,
                                                  .moisture = moisture,
                                                  .conductivity = 0.5F});
}

/* ---- the house's own disk */

static void name_file(char *name, size_t size, uint32_t own, const char *end) {
    snprintf(name, size, "%s/house-%u.%s", folder, (unsigned)own, end);
}

/* A short write counts as a failure: the old file then stays. */
static bool write_whole(int file, const void *bytes, size_t size) {
    return (size_t)write(file, bytes, size) == size;
}

/* A new file. What is written to it is kept by `keep_file`. */
static int new_file(uint32_t own) {
    char fresh[256];
    name_file(fresh, sizeof fresh, own, "new");
    return open(fresh, O_WRONLY | O_CREAT | O_TRUNC, 0600);
}

/* Whole or not at all: the new file, synced, is then renamed over the old one. */
static bool keep_file(uint32_t own, int file, bool whole, const char *end) {
    char fresh[256], kept[256];
    name_file(fresh, sizeof fresh, own, "new");
    name_file(kept, sizeof kept, own, end);
    bool written = whole && fsync(file) == 0;
    bool closed = file >= 0 && close(file) == 0;
    if (!written || !closed || rename(fresh, kept) != 0) {
        return false;
    }
    int place = open(folder, O_RDONLY);
    bool synced = place >= 0 && fsync(place) == 0;
    return place >= 0 && close(place) == 0 && synced;
}

/* The book, and beside it a delivery behind a 1, or zeros. */
static bool store(uint32_t own, const uint8_t *book, size_t len, const gm_outcome *gave) {
    int file = new_file(own);
    bool whole = file >= 0 && write_whole(file, book, len) && write_whole(file, &gave->delivers, 1) &&
                 write_whole(file, gave->declaration, GM_DECLARATION_BYTES);
    return keep_file(own, file, whole, "book");
}

/* The totals' 24 bytes, and 20 for each line in use. Numbers are stored as bytes, and not as a struct lies in memory. */
static bool store_roll(uint32_t own, const struct roll *roll) {
    uint8_t bytes[GM_TOTALS_BYTES + LINES * GM_DECLARATION_BYTES], *at = bytes + GM_TOTALS_BYTES;
    gm_totals_to_bytes(bytes, &roll->totals);
    for (size_t line = 0; line < roll->totals.lines; line++) {
        gm_line_to_bytes(at, &roll->lines[line]);
        at += GM_DECLARATION_BYTES;
    }
    int file = new_file(own);
    return keep_file(own, file, file >= 0 && write_whole(file, bytes, (size_t)(at - bytes)), "roll");
}

/* Opens what was stored last. */
static int kept_file(uint32_t own, const char *end) {
    char kept[256];
    name_file(kept, sizeof kept, own, end);
    return open(kept, O_RDONLY);
}

/* What was stored last, if it is there to the byte and a legal book. gm_waiting tests the whole book, once; from then on the house receives
 * by entry. Beside it stands a delivery behind a 1, or zeros. */
static bool recover_book(struct house *house, uint8_t beside[1 + GM_DECLARATION_BYTES]) {
    int file = kept_file(house->own, "book");
    if (file < 0) {
        return false;
    }
    size_t size = 1 + GM_DECLARATION_BYTES;
    uint8_t past_end;
    bool whole = (size_t)read(file, house->book, house->len) == house->len && (size_t)read(file, beside, size) == size &&
                 read(file, &past_end, 1) == 0;
    bool legal = whole && gm_waiting(house->book, house->len).answer == GM_ACCEPTED;
    return close(file) == 0 && legal;
}

/* What was stored last, if it is there to the byte and the totals are those of the lines. gm_roll_test says so, and changes neither. */
static bool recover_roll(struct house *house) {
    int file = kept_file(house->own, "roll");
    if (file < 0) {
        return false;
    }
    struct roll roll;
    memset(&roll, 0, sizeof roll);
    uint8_t bytes[GM_TOTALS_BYTES], past_end;
    bool whole = (size_t)read(file, bytes, sizeof bytes) == sizeof bytes;
    gm_totals_from_bytes(&roll.totals, bytes);
    whole = whole && roll.totals.lines <= LINES;
    for (size_t line = 0; whole && line < roll.totals.lines; line++) {
        whole = (size_t)read(file, bytes, GM_DECLARATION_BYTES) == GM_DECLARATION_BYTES;
        roll.lines[line] = gm_roll_line(bytes);
    }
    whole = whole && read(file, &past_end, 1) == 0;
    house->roll = roll;
    return close(file) == 0 && whole && gm_roll_test(house->roll.lines, LINES, &house->roll.totals) == GM_ACCEPTED;
}

/* ---- the roll */

static void tell_totals(uint8_t answer, const gm_totals *totals) {
    printf("%s", gm_answer_text(answer));
    if (answer != GM_ACCEPTED) {
        printf(" (answer %u)\n", (unsigned)answer);
        return;
    }
    printf("; totals: %u in use, %llu kg, ", (unsigned)totals->lines, (unsigned long long)totals->kilograms);
    if (totals->measured == 1) {
        float moisture;
        memcpy(&moisture, &totals->moisture, sizeof moisture);
        printf("highest moisture %g percent\n", (double)moisture);
    } else {
        printf("no highest moisture\n");
    }
}

/* This line stands on the roll. A line has no padding, so that all of its bytes are compared. */
static bool is_on_roll(const struct roll *roll, const gm_line *line) {
    for (size_t at = 0; at < roll->totals.lines; at++) {
        if (memcmp(&roll->lines[at], line, sizeof *line) == 0) {
            return true;
        }
    }
    return false;
}

/* On a copy, stored, which then takes the roll's place. A delivery comes once, but after a power cut it may be here already: at answer 22
 * the same line stands there. Another line would be a second declaration of the lot, for people to look at. */
static bool enter(struct house *house, const uint8_t *delivery) {
    struct roll copy = house->roll;
    gm_line line = gm_roll_line(delivery);
    uint8_t answer = gm_roll_insert(copy.lines, LINES, &copy.totals, line);
    printf("house %u enters lot %u on its roll: ", (unsigned)house->own, (unsigned)line.lot);
    tell_totals(answer, &copy.totals);
    if (answer == GM_LOT_ALREADY_THERE) {
        return is_on_roll(&house->roll, &line);
    }
    if (answer != GM_ACCEPTED || !store_roll(house->own, &copy)) {
        return false;
    }
    house->roll = copy;
    deliveries++;
    return true;
}

/* On a copy, stored, as above. Before that the book is stored with no delivery beside it: else the next start would enter again a lot that
 * was struck. */
static bool strike(struct house *house, uint32_t lot) {
    gm_outcome nothing = {0};
    struct roll copy = house->roll;
    uint8_t answer = gm_roll_strike(copy.lines, LINES, &copy.totals, lot);
    printf("house %u strikes lot %u: ", (unsigned)house->own, (unsigned)lot);
    tell_totals(answer, &copy.totals);
    if (answer != GM_ACCEPTED) {
        return answer == GM_LOT_NOT_ON_ROLL;
    }
    if (!store(house->own, house->book, house->len, &nothing) || !store_roll(house->own, &copy)) {
        return false;
    }
    house->roll = copy;
    return true;
}

/* ---- the house's own carrier */

static void carry(uint32_t from, uint32_t to, const uint8_t *bytes, size_t len) {
    if (sent < COPIES) {
        struct copy *copy = &carried[sent++];
        copy->from = from;
        copy->to = to;
        copy->len = len;
        memcpy(copy->bytes, bytes, len);
    }
}

/* "It goes to all n houses, its own included; that is n copies." */
static void carry_to_all(uint32_t from, const uint8_t *bytes, size_t len) {
    for (uint32_t to = 0; to < HOUSES; to++) {
        carry(from, to, bytes, len);
    }
}

/* ---- a start, a return and help */

/* Sends again to all what it has sent: the last message may not have left. */
static void send_again(const struct house *house) {
    for (gm_walk walk = gm_first_sent(house->book, house->len); walk.sent.gives; gm_next_sent(house->book, house->len, &walk)) {
        printf("house %u sends again to all: %s\n", (unsigned)house->own, kind_of(walk.sent.message, GM_MESSAGE_BYTES));
        carry_to_all(house->own, walk.sent.message, GM_MESSAGE_BYTES);
    }
}

/* Power is back, and nothing that was sent to the house was lost: it asks for no help. The delivery of its file is entered, or was. */
static bool start(struct house *house) {
    uint8_t beside[1 + GM_DECLARATION_BYTES];
    if (!recover_book(house, beside) || !recover_roll(house)) {
        return false;
    }
    house->up = true;
    printf("house %u starts at once with the book, the delivery and the roll of its files\n", (unsigned)house->own);
    if (beside[0] != 1 || !enter(house, beside + 1)) {
        return false;
    }
    send_again(house);
    return true;
}

/* "On return a house sends again to all what it has sent and asks all for help." */
static bool come_back(struct house *house) {
    uint8_t beside[1 + GM_DECLARATION_BYTES];
    if (!recover_book(house, beside) || !recover_roll(house)) {
        return false;
    }
    gm_return_answer back = gm_return(house->book, house->len);
    gm_waiting_answer next = gm_waiting(house->book, house->len);
    printf("house %u returns with the book of its file: %s; waiting: number %u of sender %u\n", (unsigned)house->own,
           gm_answer_text(back.answer), (unsigned)next.number, (unsigned)next.sender);
    if (back.answer != GM_ACCEPTED || !next.waits) {
        return false;
    }
    if (beside[0] == 1 && !enter(house, beside + 1)) {
        return false;
    }
    house->up = true;
    send_again(house);
    printf("house %u asks all for help\n", (unsigned)house->own);
    carry_to_all(house->own, back.request, GM_REQUEST_BYTES);
    return true;
}

/* "A helper sends again its own messages, to the asker alone." */
static void help(const struct house *house, uint32_t asker) {
    for (gm_walk walk = gm_first_sent(house->book, house->len); walk.sent.gives; gm_next_sent(house->book, house->len, &walk)) {
        printf("house %u sends again to house %u alone: %s\n", (unsigned)house->own, (unsigned)asker,
               kind_of(walk.sent.message, GM_MESSAGE_BYTES));
        carry(house->own, asker, walk.sent.message, GM_MESSAGE_BYTES);
    }
}

/* ---- the account */

static void tell_declaration(const uint8_t *declaration) {
    gm_declaration of;
    gm_declaration_from_bytes(&of, declaration);
    printf("lot %u: %u colonies, %u kg, %g percent, %g mS/cm", (unsigned)of.lot, (unsigned)of.colonies, (unsigned)of.kilograms,
           (double)of.moisture, (double)of.conductivity);
}

static void tell(const gm_outcome *gave) {
    printf("%s", gm_answer_text(gave->answer));
    if (gave->answer != GM_ACCEPTED) {
        printf(" (answer %u)", (unsigned)gave->answer);
    }
    if (gave->gives) {
        printf(", gives %s", kind_of(gave->message, GM_MESSAGE_BYTES));
    }
    if (gave->delivers) {
        printf(", delivers ");
        tell_declaration(gave->declaration);
    }
    if (gave->helps) {
        printf(", helps");
    }
    printf("\n");
}

/* The declaration that the book has of this kind from this house on this entry: docs/BOOK.md, "The slots of an entry". */
static const uint8_t *standing(const uint8_t *book, uint32_t from, const gm_read_answer *came) {
    size_t n = book[0], s = book[1];
    size_t slot = s + (came->number * n + came->sender) * (2 * n + 3);
    if (came->kind != GM_SEND) {
        slot += 1 + from + (came->kind == GM_READY ? n : 0);
    }
    return book + 31 + n + 21 * slot + 1;
}

/* A conflict: what was heard first stands in the book. Here the account keeps both; a house keeps both messages as they came, with the
 * signatures of its carrier. */
static void keep_evidence(const struct house *house, uint32_t from, const uint8_t *bytes, size_t len) {
    gm_read_answer came = gm_read(bytes, len);
    printf("house %u keeps as evidence against house %u, %s on number %u of sender %u: first ", (unsigned)house->own, (unsigned)from,
           kind_of(bytes, len), (unsigned)came.number, (unsigned)came.sender);
    tell_declaration(standing(house->book, from, &came));
    printf("; then ");
    tell_declaration(came.declaration);
    printf("\n");
}

/* Memory is gone, and the files stay. */
static bool power_fails(struct house *house, const char *when) {
    printf("house %u loses power %s\n", (unsigned)house->own, when);
    house->up = false;
    memset(house->book, 0, house->len);
    memset(house->worked, 0, house->len);
    memset(&house->roll, 0, sizeof house->roll);
    return true;
}

/* One house loses power twice: after a READY was stored and before it leaves; and after a delivery was stored and before its roll has
 * it. */
static bool loses_power(struct house *house, const gm_outcome *gave) {
    static bool first, second;
    if (house->own != LOSES_POWER) {
        return false;
    }
    if (!first && gave->gives && gm_read(gave->message, GM_MESSAGE_BYTES).kind == GM_READY) {
        first = true;
        return power_fails(house, "before its READY leaves");
    }
    if (!second && gave->delivers) {
        second = true;
        return power_fails(house, "before its roll has the delivery");
    }
    return false;
}

/* Another house loses power after its roll was stored. */
static bool loses_power_later(struct house *house, const gm_outcome *gave) {
    if (house->own != 0 || gm_roll_line(gave->declaration).lot != LOT_OF_LIAR) {
        return false;
    }
    return power_fails(house, "once its roll has the delivery");
}

/* ---- a call: on a copy, stored; then the roll, stored; then what the call gave leaves */

/* The copy that the next call works on. */
static uint8_t *copy_book(struct house *house) {
    memcpy(house->worked, house->book, house->len);
    return house->worked;
}

/* Puts the copy in the book's place; the next call works on what was the book. */
static void put_in_place(struct house *house) {
    uint8_t *before = house->book;
    house->book = house->worked;
    house->worked = before;
}

/* Answer 1 stops the house: memory was overwritten. At its next start it reads its file, and tests it. */
static bool settle(struct house *house, uint32_t from, const gm_outcome *gave) {
    tell(gave);
    if (gave->answer != GM_ACCEPTED) {
        return gave->answer != GM_NO_LEGAL_BOOK && memcmp(house->worked, house->book, house->len) == 0;
    }
    if (!store(house->own, house->worked, house->len, gave)) {
        return false;
    }
    put_in_place(house);
    if (loses_power(house, gave)) {
        return !gave->delivers || start(house);
    }
    if (gave->delivers) {
        if (!enter(house, gave->declaration)) {
            return false;
        }
        if (loses_power_later(house, gave)) {
            return start(house);
        }
    }
    if (gave->gives) {
        carry_to_all(house->own, gave->message, GM_MESSAGE_BYTES);
    }
    if (gave->helps) {
        help(house, from);
    }
    return true;
}

static bool publish(struct house *house, uint32_t number, const uint8_t *declaration) {
    gm_outcome gave = gm_publish(copy_book(house), house->len, number, declaration);
    gm_declaration of;
    gm_declaration_from_bytes(&of, declaration);
    printf("house %u publishes lot %u at number %u: ", (unsigned)house->own, (unsigned)of.lot, (unsigned)number);
    return settle(house, house->own, &gave);
}

/* By entry: the book was opened here, or tested when it was taken from the file. */
static bool receive(struct house *house, uint64_t from, const uint8_t *bytes, size_t len) {
    gm_outcome gave = gm_receive_entry(copy_book(house), house->len, gm_house(from), bytes, len);
    printf("house %u hears %s from house %llu: ", (unsigned)house->own, kind_of(bytes, len), (unsigned long long)from);
    bool settled = settle(house, gm_house(from), &gave);
    if (gave.answer == GM_CONFLICT) {
        keep_evidence(house, gm_house(from), bytes, len);
    }
    return settled;
}

static bool open_all(void) {
    /* cap 20 kilograms per colony; moisture at most 20.0; conductivity open */
    uint8_t sheet[GM_SHEET_BYTES];
    gm_sheet_to_bytes(sheet, 20, gm_gate_at_most(20.0F), gm_gate_open());
    gm_length_answer size = gm_length(HOUSES, NUMBERS);
    gm_outcome nothing = {0};
    if (size.answer != GM_ACCEPTED) {
        return false;
    }
    printf("%d houses with %d numbers each, season %d, f = %d, d = %d: a book is %u bytes\n", HOUSES, NUMBERS, SEASON, DOWN, LIMIT,
           (unsigned)size.length);
    for (uint32_t own = 0; own < HOUSES; own++) {
        struct house *house = &houses[own];
        house->own = own;
        house->up = true;
        house->len = size.length;
        house->book = malloc(house->len);
        house->worked = malloc(house->len);
        if (house->book == NULL || house->worked == NULL) {
            return false;
        }
        uint8_t answer = gm_open(house->book, house->len, HOUSES, NUMBERS, own, DOWN, LIMIT, SEASON, sheet, sizeof sheet);
        printf("house %u opens its book: %s\n", (unsigned)own, gm_answer_text(answer));
        house->roll.totals = gm_empty_totals();
        if (answer != GM_ACCEPTED || !store(own, house->book, house->len, &nothing) || !store_roll(own, &house->roll)) {
            return false;
        }
    }
    return true;
}

static void free_all(void) {
    for (uint32_t own = 0; own < HOUSES; own++) {
        free(houses[own].book);
        free(houses[own].worked);
    }
}

/* Brings each copy once. "What arrives meanwhile is lost." What comes to the liar once it lies, nobody hears. */
static bool bring_all(void) {
    for (; taken < sent; taken++) {
        const struct copy *copy = &carried[taken];
        struct house *house = &houses[copy->to];
        requests += copy->len == GM_REQUEST_BYTES ? 1 : 0;
        if (lies && copy->to == LIAR) {
            continue;
        }
        if (!house->up) {
            printf("house %u is down: %s from house %u is lost\n", (unsigned)copy->to, kind_of(copy->bytes, copy->len),
                   (unsigned)copy->from);
            lost++;
        } else if (!receive(house, copy->from, copy->bytes, copy->len)) {
            return false;
        }
    }
    printf("%u copies and %u requests were carried, %u of them lost; %u deliveries\n", (unsigned)(taken - requests),
           (unsigned)requests, (unsigned)lost, (unsigned)deliveries);
    return true;
}

/* A carrier that repeats a request spends the asker's help. */
static bool repeat_the_request(void) {
    gm_return_answer back = gm_return(houses[LOSES_POWER].book, houses[LOSES_POWER].len);
    printf("the carrier brings house 0 the request of house %d twice more\n", LOSES_POWER);
    for (int times = 0; times < 2; times++) {
        if (!receive(&houses[0], LOSES_POWER, back.request, GM_REQUEST_BYTES)) {
            return false;
        }
    }
    return bring_all();
}

/* Four things that a house refuses; each leaves its book as it was. */
static bool refuse(void) {
    uint64_t wide = ((uint64_t)1 << 32) + PUBLISHER; /* cut to 32 bits it would be the publisher */
    const struct copy *send = &carried[0];
    return receive(&houses[0], PUBLISHER, send->bytes, send->len) && receive(&houses[0], wide, send->bytes, send->len) &&
           publish(&houses[PUBLISHER], NUMBER, lot77) && publish(&houses[PUBLISHER], 0, heavy);
}

/* A lot that is not plausible: nothing is published, and the number may be used. */
static bool is_not_published(const uint8_t *declaration) {
    struct house *house = &houses[PUBLISHER];
    if (!publish(house, 0, declaration)) {
        return false;
    }
    gm_sent_answer none = gm_sent(house->book, house->len, GM_SEND, PUBLISHER, 0);
    return none.answer == GM_ACCEPTED && !none.gives;
}

/* No bees, no honey: with no colonies a lot is not plausible, whatever its weight. */
static bool ask_for_the_colonies(void) {
    printf("a beekeeper declares lot 78 with no colonies and no kilograms\n");
    if (!is_not_published(no_bees)) {
        return false;
    }
    printf("house %d asks the beekeeper for the colonies; its number 0 is still free\n", PUBLISHER);
    return true;
}

/* A reading below zero is not plausible, even at an open gate; here the gate is at most 20.0, and would let it in. */
static bool ask_for_the_reading(void) {
    printf("a refractometer sends minus 3 as the moisture of lot 79\n");
    if (!is_not_published(minus_3)) {
        return false;
    }
    printf("house %d asks the laboratory to look at the refractometer and to read again; its number 0 is still free\n", PUBLISHER);
    return true;
}

/* The liar's SEND, ECHO and READY of a declaration, to one house. */
static void say(uint32_t to, const uint8_t *declaration) {
    for (uint8_t kind = GM_SEND; kind <= GM_READY; kind++) {
        gm_written message = gm_write(kind, SEASON, LIAR, NUMBER, declaration);
        carry(LIAR, to, message.message, GM_MESSAGE_BYTES);
    }
}

/* A wrong house says of lot 90 one thing to houses 0 and 1 and another to house 2, and vouches for both. One of four may be wrong: the
 * honest ones deliver one of the two, or none, and the same. */
static bool lie(void) {
    lies = true;
    printf("house %d lies: to houses 0 and 1 lot 90 has 600 kg, to house 2 it has 500\n", LIAR);
    for (uint32_t to = 0; to < LIAR; to++) {
        say(to, to < 2 ? lot90 : twin);
    }
    if (!bring_all()) {
        return false;
    }
    for (uint32_t own = 0; own < LIAR; own++) {
        const struct house *house = &houses[own];
        if (house->roll.totals.lines != 2 || !is_on_roll(&house->roll, &houses[0].roll.lines[1])) {
            return false;
        }
    }
    printf("houses 0, 1 and 2 delivered one declaration of lot 90, the same\n");
    return true;
}

/* A nervous carrier brings what the house has: a repeat. A liar brings something else: a conflict. Neither changes a book. */
static bool repeat_and_conflict(void) {
    printf("a nervous carrier brings house 0 again what house %d told it\n", LIAR);
    say(0, lot90);
    if (!bring_all()) {
        return false;
    }
    printf("house %d tells house 0 what it told house 2\n", LIAR);
    say(0, twin);
    return bring_all();
}

/* The inspectors looked at the evidence. Striking it once more is refused, and changes nothing. */
static bool strike_the_lie(void) {
    printf("the inspectors have lot %d struck\n", LOT_OF_LIAR);
    for (uint32_t own = 0; own < LIAR; own++) {
        if (!strike(&houses[own], LOT_OF_LIAR)) {
            return false;
        }
    }
    return strike(&houses[0], LOT_OF_LIAR) && houses[0].roll.totals.lines == 1;
}

static bool run(void) {
    declare(lot77, 77, 40, 800, 17.5F);
    declare(heavy, 77, 40, 801, 17.5F);
    declare(no_bees, 78, 0, 0, 17.5F);
    declare(minus_3, 79, 40, 800, -3.0F);
    declare(lot90, LOT_OF_LIAR, 30, 600, 18.5F);
    declare(twin, LOT_OF_LIAR, 30, 500, 18.5F);
    return open_all() && publish(&houses[PUBLISHER], NUMBER, lot77) && bring_all() && come_back(&houses[LOSES_POWER]) &&
           bring_all() && repeat_the_request() && refuse() && ask_for_the_colonies() && ask_for_the_reading() && lie() &&
           repeat_and_conflict() && strike_the_lie() && !gm_waiting(houses[LOSES_POWER].book, houses[LOSES_POWER].len).waits;
}

int main(int count, char **words) {
    if (count > 1) {
        folder = words[1];
    }
    bool went_well = run();
    free_all();
    if (!went_well) {
        printf("the house stopped: a book had no memory, or a book or a roll was not stored, not recovered, not sound or not as it was\n");
        return 1;
    }
    return 0;
}
