/* Each call with each of its answers, two answers at once where the order decides, the walk over what was sent, the most houses and one
 * more, no colonies and readings below zero in each call and in a book of an earlier version, limits below zero in a sheet and in a book,
 * null pointers with length 0, receiving by entry on a book that is not legal, a roll that is not sound in each way, the most lines and one
 * more, the message of document 01, and the header's helpers, in two float modes: says what is not so, and ends with status 1 then. It
 * tries that header and archive agree; tests over all inputs stand elsewhere. */
#include "grassmunch.h"

#include <stdio.h>
#include <string.h>

/* n = 4 and S = 1, as docs/BOOK.md gives the length; f = 0, so that t = 1; each asker is helped twice. */
enum { HOUSES = 4, BOOK = 980, DOWN = 0, LIMIT = 2 };

static const uint8_t sheet[GM_SHEET_BYTES] = {0, 0, 0, 20, GM_GATE_AT_MOST, 0, 0, 0, 0, 0x41, 0xA0, 0, 0, GM_GATE_OPEN};
static const uint8_t lot77[GM_DECLARATION_BYTES] = {0, 0, 0, 77, 0, 0, 0, 40, 0, 0, 3, 0x20, 0x41, 0x8C, 0, 0, 0x3F, 0, 0, 0};
static const uint8_t heavy[GM_DECLARATION_BYTES] = {0, 0, 0, 77, 0, 0, 0, 40, 0, 0, 3, 0x21, 0x41, 0x8C, 0, 0, 0x3F, 0, 0, 0};
/* Plausible too: a kilogram less, and a conductivity of 0.0 and of -0.0. */
static const uint8_t light[GM_DECLARATION_BYTES] = {0, 0, 0, 77, 0, 0, 0, 40, 0, 0, 3, 0x1F, 0x41, 0x8C, 0, 0, 0x3F, 0, 0, 0};
static const uint8_t zero[GM_DECLARATION_BYTES] = {0, 0, 0, 77, 0, 0, 0, 40, 0, 0, 3, 0x20, 0x41, 0x8C, 0, 0, 0, 0, 0, 0};
static const uint8_t minus_zero[GM_DECLARATION_BYTES] = {0, 0, 0, 77, 0, 0, 0, 40, 0, 0, 3, 0x20, 0x41, 0x8C, 0, 0, 0x80, 0, 0, 0};
/* No colonies with no kilograms, which passed up to 3.0.0, and with one; and one colony with no kilograms, which is plausible. */
static const uint8_t nothing[GM_DECLARATION_BYTES] = {0, 0, 0, 77, 0, 0, 0, 0, 0, 0, 0, 0, 0x41, 0x8C, 0, 0, 0x3F, 0, 0, 0};
static const uint8_t no_bees[GM_DECLARATION_BYTES] = {0, 0, 0, 77, 0, 0, 0, 0, 0, 0, 0, 1, 0x41, 0x8C, 0, 0, 0x3F, 0, 0, 0};
static const uint8_t no_honey[GM_DECLARATION_BYTES] = {0, 0, 0, 77, 0, 0, 0, 1, 0, 0, 0, 0, 0x41, 0x8C, 0, 0, 0x3F, 0, 0, 0};
static const uint8_t whole[GM_MESSAGE_BYTES] = {1, 0, 1, GM_SEND, 2, 0, 6, 0, 0, 0x07, 0xEA, 2, 1, 3, 0, 20,
                                                0, 0, 0, 77, 0, 0, 0, 40, 0, 0, 3, 0x20, 0x41, 0x8C, 0, 0, 0x3F, 0, 0, 0};
static const uint8_t request[GM_REQUEST_BYTES + 1] = {1, 0, 1, GM_REQUEST, 2, 0, 4, 0, 0, 0x07, 0xEA};
static const uint8_t request_2027[GM_REQUEST_BYTES] = {1, 0, 1, GM_REQUEST, 2, 0, 4, 0, 0, 0x07, 0xEB};

/* Receiving, or receiving by entry: all is tried by either, since on a legal book the two are the same. */
static gm_outcome (*receives)(uint8_t *, size_t, uint32_t, const uint8_t *, size_t) = gm_receive;

static uint8_t book[BOOK], before[BOOK];
static int wrong;
/* What is tried just now, where several things are tried alike. */
static const char *of = "";

static void so(bool truth, const char *what) {
    if (!truth) {
        printf("not so%s: %s%s%s\n", receives == gm_receive_entry ? ", by entry" : "", what, *of ? ": " : "", of);
        wrong = 1;
    }
}

static bool untouched(void) { return memcmp(book, before, BOOK) == 0; }

static bool is_zero(const uint8_t *bytes, size_t size) {
    for (size_t i = 0; i < size; i++) {
        if (bytes[i] != 0) {
            return false;
        }
    }
    return true;
}

static bool is_refusal(gm_outcome got, uint8_t answer) {
    return got.answer == answer && !got.gives && !got.delivers && !got.helps && is_zero(got.message, 36) &&
           is_zero(got.declaration, 20);
}

static bool refused(gm_outcome got, uint8_t answer) { return is_refusal(got, answer) && untouched(); }

static bool helped(gm_outcome got) {
    return got.answer == GM_ACCEPTED && got.helps && !got.gives && !got.delivers && is_zero(got.message, 36) &&
           is_zero(got.declaration, 20);
}

static bool not_sent(gm_sent_answer got, uint8_t answer) { return got.answer == answer && !got.gives && is_zero(got.message, 36); }

static uint8_t open_as(uint32_t n, uint32_t own, uint32_t f, uint32_t d) {
    return gm_open(book, BOOK, n, 1, own, f, d, 2026, sheet, sizeof sheet);
}

static uint8_t open_with(const uint8_t *by) { return gm_open(book, BOOK, HOUSES, 1, 0, DOWN, LIMIT, 2026, by, GM_SHEET_BYTES); }

static gm_outcome receive(uint32_t house, uint8_t kind, uint32_t season, uint8_t sender, const uint8_t *declaration) {
    gm_written message = gm_write(kind, season, sender, 0, declaration);
    return receives(book, BOOK, house, message.message, sizeof message.message);
}

static gm_outcome hear_request(uint32_t asker) { return receives(book, BOOK, asker, request, GM_REQUEST_BYTES); }

static void opening(void) {
    so(gm_length(4, 1).answer == GM_ACCEPTED && gm_length(4, 1).length == BOOK, "length 0");
    so(gm_length(16, 4).answer == GM_ACCEPTED && gm_length(16, 4).length == 47171, "length 0: 16 houses, as it was");
    so(gm_length(17, 1).answer == GM_ACCEPTED && gm_length(17, 1).length == 13278, "length 0: 17 houses");
    so(gm_length(31, 4).answer == GM_ACCEPTED && gm_length(31, 4).length == 169406, "length 0: 31 houses");
    so(gm_length(GM_MOST_HOUSES, GM_MOST_NUMBERS).length == GM_LONGEST_BOOK, "the longest book");
    so(gm_length(32, 1).answer == GM_NOT_ALLOWED && gm_length(32, 1).length == 0, "length 9: 32 houses");
    so(gm_length(31, 5).answer == GM_NOT_ALLOWED && gm_length(31, 5).length == 0, "length 9: 5 numbers");
    memset(book, 0xFF, BOOK);
    memcpy(before, book, BOOK);
    so(open_as(HOUSES, 4, DOWN, LIMIT) == GM_NOT_ALLOWED && untouched(), "opening 9: own number 4");
    so(open_as(HOUSES, 0, 2, LIMIT) == GM_NOT_ALLOWED && untouched(), "opening 9: 2f = n");
    so(open_as(HOUSES, 0, DOWN, 9) == GM_NOT_ALLOWED && untouched(), "opening 9: d = 9");
    so(open_as(31, 0, 5, LIMIT) == GM_NOT_ALLOWED && untouched(), "opening 9: f = 5");
    so(open_as(31, 0, 4, LIMIT) == GM_WRONG_LENGTH && untouched(), "opening 11: f = 4 is allowed");
    so(open_as(32, 0, 4, LIMIT) == GM_NOT_ALLOWED && untouched(), "opening 9: 32 houses");
    so(open_as(31, 31, DOWN, LIMIT) == GM_NOT_ALLOWED && untouched(), "opening 9: own number 31");
    so(open_as(31, 30, DOWN, LIMIT) == GM_WRONG_LENGTH && untouched(), "opening 11: own number 30 is allowed");
    so(gm_open(book, 0, HOUSES, 1, 0, 2, LIMIT, 2026, sheet, 0) == GM_NOT_ALLOWED && untouched(), "opening 9 before 10 and 11");
    so(gm_open(book, 0, HOUSES, 1, 0, DOWN, LIMIT, 2026, sheet, 0) == GM_SHEET_NOT_LEGAL && untouched(), "opening 10 before 11");
    so(gm_open(book, BOOK - 1, HOUSES, 1, 0, DOWN, LIMIT, 2026, sheet, sizeof sheet) == GM_WRONG_LENGTH && untouched(),
       "opening 11");
}

/* Every call that takes a book answers 1, before any other answer, and leaves it. */
static void every_call_1(void) {
    memcpy(before, book, BOOK);
    so(refused(gm_publish(book, BOOK, 0, lot77), GM_NO_LEGAL_BOOK), "publishing 1");
    so(refused(gm_publish(book, BOOK, 1, heavy), GM_NO_LEGAL_BOOK), "publishing 1 before 4");
    so(refused(receive(0, GM_SEND, 2026, 0, lot77), GM_NO_LEGAL_BOOK), "receiving 1");
    so(refused(hear_request(0), GM_NO_LEGAL_BOOK), "a request 1");
    so(refused(receives(book, BOOK, 4, request, 10), GM_NO_LEGAL_BOOK), "a request 1 before 2");
    gm_return_answer back = gm_return(book, BOOK);
    so(back.answer == GM_NO_LEGAL_BOOK && is_zero(back.request, GM_REQUEST_BYTES), "a return 1");
    so(not_sent(gm_sent(book, BOOK, GM_SEND, 0, 0), GM_NO_LEGAL_BOOK), "sent 1");
    so(not_sent(gm_sent(book, BOOK, 0, 4, 1), GM_NO_LEGAL_BOOK), "sent 1 before 2");
    so(not_sent(gm_first_sent(book, BOOK).sent, GM_NO_LEGAL_BOOK), "a walk 1");
    gm_waiting_answer next = gm_waiting(book, BOOK);
    so(next.answer == GM_NO_LEGAL_BOOK && !next.waits && next.number == 0 && next.sender == 0, "waiting 1");
    so(untouched(), "answer 1 leaves the bytes");
}

static void no_legal_book(void) {
    every_call_1();
    so(open_as(HOUSES, 0, DOWN, LIMIT) == GM_ACCEPTED && !untouched(), "opening 0");
    so(book[29] == DOWN && book[30] == LIMIT && is_zero(book + 31, HOUSES), "f and d in the book, and nobody helped");
    so(not_sent(gm_first_sent(book, BOOK).sent, GM_NOT_IN_BOOK), "a fresh house sent nothing");
}

static void publishing(void) {
    memcpy(before, book, BOOK);
    so(refused(gm_publish(book, BOOK, 1, heavy), GM_NOT_IN_BOOK), "publishing 4");
    so(refused(gm_publish(book, BOOK, 0, heavy), GM_NOT_PLAUSIBLE), "publishing 5");
    gm_outcome got = gm_publish(book, BOOK, 0, lot77);
    gm_written send = gm_write(GM_SEND, 2026, 0, 0, lot77);
    so(got.answer == GM_ACCEPTED && got.gives && memcmp(got.message, send.message, 36) == 0 && !got.delivers && !got.helps,
       "publishing 0");
    memcpy(before, book, BOOK);
    so(refused(gm_publish(book, BOOK, 0, lot77), GM_ALREADY_PUBLISHED), "publishing 8");
}

static void receiving(void) {
    memcpy(before, book, BOOK);
    so(refused(receives(book, BOOK, 0, whole, 35), GM_MALFORMED), "receiving 2");
    so(refused(receive(0, GM_SEND, 2027, 0, lot77), GM_OTHER_SEASON), "receiving 3");
    so(refused(receive(gm_house((uint64_t)1 << 32), GM_SEND, 2026, 0, lot77), GM_NOT_IN_BOOK), "receiving 4");
    so(refused(receive(0, GM_SEND, 2026, 0, heavy), GM_NOT_PLAUSIBLE), "receiving 5");
    so(refused(receive(1, GM_SEND, 2026, 0, lot77), GM_NOT_FROM_SENDER), "receiving 6");
    so(!gm_waiting(book, BOOK).waits, "none waits");
    gm_outcome got = receive(3, GM_SEND, 2026, 3, lot77);
    so(got.answer == GM_ACCEPTED && got.gives && gm_read(got.message, 36).kind == GM_ECHO && !got.helps, "receiving 0");
    gm_waiting_answer next = gm_waiting(book, BOOK);
    so(next.answer == GM_ACCEPTED && next.waits && next.number == 0 && next.sender == 3, "sender 3 waits");
    so(!receive(0, GM_READY, 2026, 3, lot77).gives, "one READY is few");
    so(receive(1, GM_READY, 2026, 3, lot77).gives, "two READYs give READY");
    got = receive(2, GM_READY, 2026, 3, lot77);
    so(!got.gives && got.delivers && memcmp(got.declaration, lot77, 20) == 0, "three READYs deliver");
}

/* A message that was accepted is answered 7 when it comes again, before and after a different one, which is answered 13. */
static bool repeats(uint32_t house, uint8_t kind, uint8_t sender, const uint8_t *stands, const uint8_t *other) {
    memcpy(before, book, BOOK);
    return refused(receive(house, kind, 2026, sender, stands), GM_ALREADY_ACCEPTED) &&
           refused(receive(house, kind, 2026, sender, other), GM_CONFLICT) &&
           refused(receive(house, kind, 2026, sender, stands), GM_ALREADY_ACCEPTED);
}

static void repeating(void) {
    so(repeats(3, GM_SEND, 3, lot77, light), "receiving 7 and 13: a SEND");
    so(repeats(2, GM_READY, 3, lot77, light), "receiving 7 and 13: a READY");
    so(refused(receive(3, GM_SEND, 2026, 3, heavy), GM_NOT_PLAUSIBLE), "receiving 5 before 13");
    so(refused(receive(1, GM_SEND, 2026, 3, lot77), GM_NOT_FROM_SENDER), "receiving 6 before 7");
    so(refused(receive(1, GM_SEND, 2026, 3, light), GM_NOT_FROM_SENDER), "receiving 6 before 13");
    so(receive(1, GM_ECHO, 2026, 2, zero).answer == GM_ACCEPTED, "an ECHO with a reading of 0.0");
    so(repeats(1, GM_ECHO, 2, zero, minus_zero), "receiving 7 and 13: an ECHO, 0.0 and -0.0");
    so(receive(2, GM_ECHO, 2026, 2, minus_zero).answer == GM_ACCEPTED, "a different ECHO of another house");
    so(repeats(2, GM_ECHO, 2, minus_zero, zero), "receiving 7 and 13: an ECHO, -0.0 and 0.0");
    so(receive(1, GM_READY, 2026, 2, light).answer == GM_ACCEPTED, "a different declaration in another kind");
    so(receive(1, GM_ECHO, 2026, 3, light).answer == GM_ACCEPTED, "a different declaration on another entry");
}

static void asking(void) {
    memcpy(before, book, BOOK);
    so(refused(receives(book, BOOK, 3, request, 10), GM_MALFORMED), "a request 2: 10 bytes");
    so(refused(receives(book, BOOK, 3, request, 12), GM_MALFORMED), "a request 2: 12 bytes");
    uint8_t other[GM_MESSAGE_BYTES];
    memcpy(other, request, GM_REQUEST_BYTES);
    other[3] = GM_READY;
    so(refused(receives(book, BOOK, 3, other, GM_REQUEST_BYTES), GM_MALFORMED), "a request 2: kind 3 in 11 bytes");
    memcpy(other, whole, GM_MESSAGE_BYTES);
    other[3] = GM_REQUEST;
    so(refused(receives(book, BOOK, 3, other, GM_MESSAGE_BYTES), GM_MALFORMED), "a request 2: kind 9 in 36 bytes");
    so(refused(receives(book, BOOK, 4, request, 10), GM_MALFORMED), "a request 2 before 4");
    so(refused(receives(book, BOOK, 3, request_2027, sizeof request_2027), GM_OTHER_SEASON), "a request 3");
    so(refused(receives(book, BOOK, 4, request_2027, sizeof request_2027), GM_OTHER_SEASON), "a request 3 before 4");
    so(refused(hear_request(4), GM_NOT_IN_BOOK), "a request 4");
    so(refused(hear_request(gm_house(((uint64_t)1 << 32) + 3)), GM_NOT_IN_BOOK), "a request 4, not cut");
    for (uint8_t times = 1; times <= LIMIT; times++) {
        so(helped(hear_request(3)), "a request 0");
        before[31 + 3] = times;
        so(untouched(), "a request is counted, and no other byte changes");
    }
    so(refused(hear_request(3), GM_HELPED_ENOUGH), "a request 14");
    so(refused(receives(book, BOOK, 3, request_2027, sizeof request_2027), GM_OTHER_SEASON), "a request 3 before 14");
    so(refused(receives(book, BOOK, 3, request, 10), GM_MALFORMED), "a request 2 before 14");
    so(helped(hear_request(0)) && book[31] == 1, "another asker, and itself, is helped");
}

/* The walk gives three messages of this declaration: house 0's own SEND, and its ECHO and READY on the entry of sender 3. */
static gm_walk walk_of(const uint8_t *declaration) {
    static const uint8_t kinds[] = {GM_SEND, GM_ECHO, GM_READY};
    static const uint8_t senders[] = {0, 3, 3};
    size_t count = 0;
    gm_walk walk = gm_first_sent(book, BOOK);
    for (; walk.sent.gives && count < sizeof kinds; gm_next_sent(book, BOOK, &walk)) {
        gm_written same = gm_write(kinds[count], 2026, senders[count], 0, declaration);
        so(walk.kind == kinds[count] && walk.sender == senders[count] && walk.number == 0, "the walk's order");
        so(walk.sent.answer == GM_ACCEPTED && memcmp(walk.sent.message, same.message, 36) == 0, "sent 0, the same 36 bytes");
        count++;
    }
    so(count == sizeof kinds && not_sent(walk.sent, GM_NOT_IN_BOOK), "the walk gives three messages, and ends at answer 4");
    return walk;
}

/* House 0 published, heard the SEND of sender 3, and marked a READY there: three messages, and the book holds them. */
static void returning(void) {
    memcpy(before, book, BOOK);
    gm_return_answer back = gm_return(book, BOOK);
    so(back.answer == GM_ACCEPTED && memcmp(back.request, request, GM_REQUEST_BYTES) == 0, "a return 0");
    so(not_sent(gm_sent(book, BOOK, 0, 0, 0), GM_MALFORMED), "sent 2: kind 0");
    so(not_sent(gm_sent(book, BOOK, 4, 0, 0), GM_MALFORMED), "sent 2: kind 4");
    so(not_sent(gm_sent(book, BOOK, GM_REQUEST, 4, 1), GM_MALFORMED), "sent 2 before 4: kind 9");
    so(not_sent(gm_sent(book, BOOK, GM_SEND, 4, 0), GM_NOT_IN_BOOK), "sent 4: sender 4");
    so(not_sent(gm_sent(book, BOOK, GM_SEND, 0, 1), GM_NOT_IN_BOOK), "sent 4: number 1");
    so(not_sent(gm_sent(book, BOOK, GM_SEND, 256, 0), GM_NOT_IN_BOOK), "sent 4: sender 256");
    so(not_sent(gm_sent(book, BOOK, GM_SEND, 3, 0), GM_ACCEPTED), "sent 0, none: the SEND of another");
    so(not_sent(gm_sent(book, BOOK, GM_ECHO, 0, 0), GM_ACCEPTED), "sent 0, none: no ECHO before its SEND is heard");
    so(not_sent(gm_sent(book, BOOK, GM_READY, 0, 0), GM_ACCEPTED), "sent 0, none: no READY");
    gm_walk walk = walk_of(lot77);
    gm_next_sent(book, BOOK, &walk);
    so(not_sent(walk.sent, GM_NOT_IN_BOOK), "a walk that ended has ended");
    so(untouched(), "a return and a walk leave the book");
}

/* Two houses with two numbers: the walk goes by number, then by sender, then by kind, and leaves out nothing. */
static void walking(void) {
    static uint8_t small[31 + 2 + 21 * (2 + 2 * 2 * 7)];
    so(gm_open(small, sizeof small, 2, 2, 1, DOWN, LIMIT, 2026, sheet, sizeof sheet) == GM_ACCEPTED, "two houses open");
    for (uint8_t number = 2; number-- > 0;) {
        so(gm_publish(small, sizeof small, number, lot77).answer == GM_ACCEPTED, "both numbers are published");
        for (uint8_t sender = 2; sender-- > 0;) {
            gm_written send = gm_write(GM_SEND, 2026, sender, number, lot77);
            gm_written ready = gm_write(GM_READY, 2026, sender, number, lot77);
            so(receives(small, sizeof small, sender, send.message, 36).gives, "each SEND gives an ECHO");
            so(receives(small, sizeof small, 0, ready.message, 36).gives, "each READY gives a READY");
        }
    }
    /* of each number: sender 0 ECHO, READY; sender 1, which is the house itself, SEND, ECHO, READY */
    static const uint8_t kinds[] = {GM_ECHO, GM_READY, GM_SEND, GM_ECHO, GM_READY, GM_ECHO, GM_READY, GM_SEND, GM_ECHO, GM_READY};
    size_t count = 0;
    for (gm_walk walk = gm_first_sent(small, sizeof small); walk.sent.gives; gm_next_sent(small, sizeof small, &walk)) {
        gm_read_answer read = gm_read(walk.sent.message, 36);
        so(read.kind == walk.kind && read.sender == walk.sender && read.number == walk.number, "the walk names its message");
        so(count < sizeof kinds && walk.kind == kinds[count] && walk.number == count / 5, "the walk's order, two numbers");
        count++;
    }
    so(count == sizeof kinds, "the whole walk");
}

/* With f = 1 among four houses t is 0, so that one READY gives a READY and two deliver; with d = 0 nobody is helped. */
static void with_one_down(void) {
    so(open_as(HOUSES, 0, 1, 0) == GM_ACCEPTED && book[29] == 1 && book[30] == 0, "opening with f = 1 and d = 0");
    gm_outcome got = receive(1, GM_READY, 2026, 3, lot77);
    so(got.gives && !got.delivers, "f = 1: one READY gives READY");
    so(receive(2, GM_READY, 2026, 3, lot77).delivers, "f = 1: two READYs deliver");
    memcpy(before, book, BOOK);
    so(refused(hear_request(0), GM_HELPED_ENOUGH), "d = 0: a request 14 at once");
    book[31 + 3] = 1;
    so(gm_return(book, BOOK).answer == GM_NO_LEGAL_BOOK, "helped above d is no legal book");
    book[31 + 3] = 0;
}

/* The longest book is that of 31 houses with 4 numbers: the last house is 30, and the last number 3. */
static uint8_t longest[GM_LONGEST_BOOK], longest_before[GM_LONGEST_BOOK];
enum { LAST_HOUSE = 30, LAST_NUMBER = 3 };

static uint8_t open_longest(uint32_t f) {
    return gm_open(longest, sizeof longest, 31, 4, LAST_HOUSE, f, LIMIT, 2026, sheet, sizeof sheet);
}

/* The longest book hears of lot 77. */
static gm_outcome hear(uint32_t house, uint8_t kind, uint8_t sender, uint8_t number) {
    gm_written message = gm_write(kind, 2026, sender, number, lot77);
    return receives(longest, sizeof longest, house, message.message, sizeof message.message);
}

/* On the last house's own last entry: what it published, its SEND heard, which waits, and both sent again. There is no house 31. */
static void last_house(void) {
    so(open_longest(DOWN) == GM_ACCEPTED && longest[0] == 31 && longest[2] == LAST_HOUSE, "31 houses open");
    gm_outcome got = gm_publish(longest, sizeof longest, LAST_NUMBER, lot77);
    so(got.gives && got.message[11] == LAST_HOUSE && got.message[12] == LAST_NUMBER, "publishing 0: the last house's last number");
    got = receives(longest, sizeof longest, LAST_HOUSE, got.message, sizeof got.message);
    so(got.gives && gm_read(got.message, 36).kind == GM_ECHO, "receiving 0: house 30 and sender 30");
    gm_waiting_answer next = gm_waiting(longest, sizeof longest);
    so(next.waits && next.number == LAST_NUMBER && next.sender == LAST_HOUSE, "sender 30 waits");
    gm_walk walk = gm_first_sent(longest, sizeof longest);
    so(walk.kind == GM_SEND && walk.sender == LAST_HOUSE && walk.number == LAST_NUMBER, "the walk: the last house's SEND");
    gm_next_sent(longest, sizeof longest, &walk);
    so(walk.kind == GM_ECHO && memcmp(walk.sent.message, got.message, 36) == 0, "the walk: the last house's ECHO");
    gm_next_sent(longest, sizeof longest, &walk);
    so(not_sent(walk.sent, GM_NOT_IN_BOOK), "the walk ends past the last sender");
    got = receives(longest, sizeof longest, LAST_HOUSE, request, GM_REQUEST_BYTES);
    so(helped(got) && longest[31 + LAST_HOUSE] == 1, "a request 0: house 30");
    memcpy(longest_before, longest, sizeof longest);
    for (uint8_t kind = GM_SEND; kind <= GM_READY; kind++) {
        so(is_refusal(hear(31, kind, LAST_HOUSE, LAST_NUMBER), GM_NOT_IN_BOOK), "receiving 4: house 31");
        so(is_refusal(hear(LAST_HOUSE, kind, 31, LAST_NUMBER), GM_NOT_IN_BOOK), "receiving 4: sender 31");
        so(is_refusal(hear(LAST_HOUSE, kind, LAST_HOUSE, 4), GM_NOT_IN_BOOK), "receiving 4: number 4");
        so(not_sent(gm_sent(longest, sizeof longest, kind, 31, 0), GM_NOT_IN_BOOK), "sent 4: sender 31");
    }
    so(is_refusal(hear(LAST_HOUSE, GM_SEND, LAST_HOUSE, LAST_NUMBER), GM_ALREADY_ACCEPTED), "receiving 7: sender 30");
    got = receives(longest, sizeof longest, 31, request, GM_REQUEST_BYTES);
    so(is_refusal(got, GM_NOT_IN_BOOK), "a request 4: house 31");
    so(is_refusal(gm_publish(longest, sizeof longest, 4, lot77), GM_NOT_IN_BOOK), "publishing 4: number 4");
    so(memcmp(longest, longest_before, sizeof longest) == 0, "31 houses: a refusal leaves the bytes");
}

/* Among 31 houses exactly so many ECHOes give a READY, so many READYs give one, and so many deliver: one fewer do not. */
static void counts(uint32_t f, uint32_t quorum, uint32_t amplify, uint32_t deliver) {
    so(open_longest(f) == GM_ACCEPTED, "31 houses open with f");
    for (uint32_t heard = 1; heard <= 31; heard++) {
        gm_outcome echo = hear(31 - heard, GM_ECHO, LAST_HOUSE, LAST_NUMBER), ready = hear(31 - heard, GM_READY, LAST_HOUSE, 0);
        so(echo.answer == GM_ACCEPTED && echo.gives == (heard == quorum) && !echo.delivers, "31 houses: the quorum of ECHOes");
        so(ready.answer == GM_ACCEPTED && ready.gives == (heard == amplify), "31 houses: READYs that give a READY");
        so(ready.delivers == (heard == deliver), "31 houses: READYs that deliver");
    }
}

/* A book of 32 houses with one number, in all else as opening would write it: no legal book, by its head. */
static void of_32_houses(void) {
    enum { HEAD = 31 + 32, LENGTH = HEAD + 21 * (1 + 32 * (2 * 32 + 3)) };
    memset(longest, 0, LENGTH);
    longest[0] = 32;
    longest[1] = 1;
    gm_put_word(longest + 3, 2026);
    memcpy(longest + 7, sheet, sizeof sheet);
    so(gm_waiting(longest, LENGTH).answer == GM_NO_LEGAL_BOOK, "a book of 32 houses as long as it would be is no legal book");
    so(is_refusal(receives(longest, LENGTH, 0, request, GM_REQUEST_BYTES), GM_NO_LEGAL_BOOK), "a request 1: 32 houses");
    so(is_zero(longest + 7 + sizeof sheet, LENGTH - 7 - sizeof sheet), "32 houses: a refusal leaves the bytes");
}

/* 31 houses, the most, as it goes with fewer; and a book that says 32, or that its own number is 31, is none. */
static void most_houses(void) {
    last_house();
    longest[0] = 32;
    so(gm_waiting(longest, sizeof longest).answer == GM_NO_LEGAL_BOOK, "a book of 32 houses is no legal book");
    longest[0] = 31;
    longest[2] = 31;
    so(gm_waiting(longest, sizeof longest).answer == GM_NO_LEGAL_BOOK, "a book of house 31 is no legal book");
    of_32_houses();
    counts(0, 21, 11, 21);
    counts(1, 21, 10, 20);
    counts(2, 20, 9, 19);
    counts(3, 20, 9, 20);
    counts(4, 20, 8, 19);
}

/* Plausible by this sheet: 0 from judging, and on a fresh book from publishing and receiving. */
static void plausible(const uint8_t *by, const uint8_t *declaration) {
    so(gm_judge(by, GM_SHEET_BYTES, declaration) == GM_ACCEPTED, "judging 0");
    so(open_with(by) == GM_ACCEPTED && memcmp(book + 7, by, GM_SHEET_BYTES) == 0, "opening 0, and the sheet's bytes are kept");
    so(gm_publish(book, BOOK, 0, declaration).gives, "publishing 0");
    for (uint8_t kind = GM_SEND; kind <= GM_READY; kind++) {
        so(receive(3, kind, 2026, 3, declaration).answer == GM_ACCEPTED, "receiving 0");
    }
}

/* Not plausible by this sheet: 5 where it stands in each call's order, on a fresh book and on one that has `other`, which is plausible. */
static void not_plausible(const uint8_t *by, const uint8_t *declaration, const uint8_t *other) {
    so(gm_judge(by, GM_SHEET_BYTES, declaration) == GM_NOT_PLAUSIBLE, "judging 5");
    so(gm_judge(by, GM_SHEET_BYTES - 1, declaration) == GM_SHEET_NOT_LEGAL, "judging 10 before 5");
    so(open_with(by) == GM_ACCEPTED, "a fresh book");
    memcpy(before, book, BOOK);
    so(refused(gm_publish(book, BOOK, 1, declaration), GM_NOT_IN_BOOK), "publishing 4 before 5");
    so(refused(gm_publish(book, BOOK, 0, declaration), GM_NOT_PLAUSIBLE), "publishing 5");
    for (uint8_t kind = GM_SEND; kind <= GM_READY; kind++) {
        so(refused(receive(4, kind, 2026, 3, declaration), GM_NOT_IN_BOOK), "receiving 4 before 5");
        so(refused(receive(3, kind, 2026, 3, declaration), GM_NOT_PLAUSIBLE), "receiving 5");
    }
    so(refused(receive(1, GM_SEND, 2026, 3, declaration), GM_NOT_PLAUSIBLE), "receiving 5 before 6");
    plausible(by, other);
    memcpy(before, book, BOOK);
    so(refused(gm_publish(book, BOOK, 0, declaration), GM_NOT_PLAUSIBLE), "publishing 5 before 8");
    for (uint8_t kind = GM_SEND; kind <= GM_READY; kind++) {
        so(refused(receive(3, kind, 2026, 3, declaration), GM_NOT_PLAUSIBLE), "receiving 5 before 13");
    }
}

/* A declaration with no colonies is not plausible, whatever its weight; one colony with no kilograms is. */
static void no_colonies(void) {
    of = "0 colonies, 0 kilograms";
    not_plausible(sheet, nothing, no_honey);
    of = "0 colonies, 1 kilogram";
    not_plausible(sheet, no_bees, no_honey);
    of = "";
}

/* Floats by their bits, so that no compiler and no float mode comes between. */
static const uint32_t below[] = {0xC0400000, 0x80000001, 0xFF7FFFFF, 0xFF800000};
static const char *const below_names[] = {"minus 3", "the smallest below zero", "the furthest below zero", "minus infinity"};
static const uint32_t zeros[] = {0x00000000, 0x80000000};
static const uint32_t above = 0x00000001, twenty = 0x41A00000, sign = 0x80000000;
enum { BELOW = sizeof below / sizeof *below, ZEROS = sizeof zeros / sizeof *zeros };
/* Moisture and conductivity: the first byte of its gate in a sheet, and of the reading in a declaration. */
enum { READINGS = 2 };
static const size_t gate_at[READINGS] = {4, 13}, reading_at[READINGS] = {12, 16};

/* Cap 20, with one gate of these bits; the other is open. */
static const uint8_t *sheet_with(size_t reading, uint8_t kind, uint32_t low, uint32_t high) {
    static uint8_t made[GM_SHEET_BYTES];
    gm_sheet_to_bytes(made, 20, gm_gate_open(), gm_gate_open());
    made[gate_at[reading]] = kind;
    gm_put_word(made + gate_at[reading] + 1, low);
    gm_put_word(made + gate_at[reading] + 5, high);
    return made;
}

/* Lot 77 with one reading of these bits. */
static const uint8_t *lot_with(uint8_t *made, size_t reading, uint32_t bits) {
    memcpy(made, lot77, GM_DECLARATION_BYTES);
    gm_put_word(made + reading_at[reading], bits);
    return made;
}

/* A reading below zero is not plausible, even at an open gate, and where a limit of its gate is above it. Each reading alone. */
static void readings_below_zero(void) {
    uint8_t lot[GM_DECLARATION_BYTES];
    for (size_t reading = 0; reading < READINGS; reading++) {
        for (size_t i = 0; i < BELOW; i++) {
            of = below_names[i];
            lot_with(lot, reading, below[i]);
            not_plausible(sheet_with(reading, GM_GATE_OPEN, 0, 0), lot, lot77);
            not_plausible(sheet_with(reading, GM_GATE_AT_MOST, 0, twenty), lot, lot77);
            not_plausible(sheet_with(reading, GM_GATE_BETWEEN, sign, twenty), lot, lot77);
        }
    }
    of = "";
}

/* This gate, whose limits are zeros, lets both zeros in, and neither the smallest above them nor the smallest below. */
static void zeros_alone(size_t reading, uint8_t kind, uint32_t low, uint32_t high) {
    uint8_t lot[GM_DECLARATION_BYTES], other[GM_DECLARATION_BYTES];
    const uint8_t *by = sheet_with(reading, kind, low, high);
    for (size_t i = 0; i < ZEROS; i++) {
        plausible(by, lot_with(other, reading, zeros[i]));
        not_plausible(by, lot_with(lot, reading, above), other);
        not_plausible(by, lot_with(lot, reading, above | sign), other);
    }
}

/* Minus zero is not below zero: as a reading it passes wherever zero does, and as a limit it is legal. */
static void both_zeros(void) {
    uint8_t lot[GM_DECLARATION_BYTES];
    of = "both zeros";
    for (size_t reading = 0; reading < READINGS; reading++) {
        for (size_t i = 0; i < ZEROS; i++) {
            lot_with(lot, reading, zeros[i]);
            plausible(sheet_with(reading, GM_GATE_OPEN, 0, 0), lot);
            plausible(sheet_with(reading, GM_GATE_AT_MOST, 0, twenty), lot);
            zeros_alone(reading, GM_GATE_AT_MOST, 0, zeros[i]);
            for (size_t high = 0; high < ZEROS; high++) {
                plausible(sheet_with(reading, GM_GATE_BETWEEN, zeros[high], twenty), lot);
                zeros_alone(reading, GM_GATE_BETWEEN, zeros[i], zeros[high]);
            }
        }
    }
    of = "";
}

/* A sheet that is not legal: 10 from judging and opening, where it stands in their order; and 1 from every call on a book that holds it. */
static void not_legal(const uint8_t *by) {
    so(gm_judge(by, GM_SHEET_BYTES, lot77) == GM_SHEET_NOT_LEGAL, "judging 10");
    so(gm_judge(by, GM_SHEET_BYTES, heavy) == GM_SHEET_NOT_LEGAL, "judging 10 before 5");
    memcpy(before, book, BOOK);
    so(open_with(by) == GM_SHEET_NOT_LEGAL && untouched(), "opening 10");
    so(gm_open(book, BOOK, HOUSES, 1, HOUSES, DOWN, LIMIT, 2026, by, GM_SHEET_BYTES) == GM_NOT_ALLOWED && untouched(),
       "opening 9 before 10");
    so(gm_open(book, BOOK - 1, HOUSES, 1, 0, DOWN, LIMIT, 2026, by, GM_SHEET_BYTES) == GM_SHEET_NOT_LEGAL && untouched(),
       "opening 10 before 11");
    plausible(sheet, lot77);
    memcpy(book + 7, by, GM_SHEET_BYTES);
    every_call_1();
}

/* Opens a book, and then sets the sign bit of the low limit, of the high one or of both: whether it is still a legal book. */
static void signs_set(size_t reading, uint8_t kind, uint32_t limit, bool low, bool high, bool legal) {
    uint8_t *gate = book + 7 + gate_at[reading];
    so(open_with(sheet_with(reading, kind, kind == GM_GATE_BETWEEN ? limit : 0, limit)) == GM_ACCEPTED, "opening 0");
    gate[1] |= low ? 0x80 : 0;
    gate[5] |= high ? 0x80 : 0;
    if (legal) {
        so(gm_waiting(book, BOOK).answer == GM_ACCEPTED && helped(hear_request(3)), "a legal book");
    } else {
        every_call_1();
    }
}

/* A limit below zero, in each place and for each reading: the sheet is not legal, nor is a book that holds it. One of minus zero is; but
 * where the kind does not use the limit it is zeros, and no other form. */
static void limits_below_zero(void) {
    for (size_t reading = 0; reading < READINGS; reading++) {
        for (size_t i = 0; i < BELOW; i++) {
            of = below_names[i];
            not_legal(sheet_with(reading, GM_GATE_AT_MOST, 0, below[i]));
            not_legal(sheet_with(reading, GM_GATE_BETWEEN, below[i], twenty));
            not_legal(sheet_with(reading, GM_GATE_BETWEEN, below[i], sign));
            not_legal(sheet_with(reading, GM_GATE_BETWEEN, below[i], below[i]));
        }
        const uint32_t limits[] = {above, twenty};
        for (size_t i = 0; i < sizeof limits / sizeof *limits; i++) {
            of = "a limit's sign bit is set";
            signs_set(reading, GM_GATE_AT_MOST, limits[i], false, true, false);
            signs_set(reading, GM_GATE_BETWEEN, limits[i], true, false, false);
            signs_set(reading, GM_GATE_BETWEEN, limits[i], true, true, false);
        }
        of = "a limit of zero becomes minus zero";
        signs_set(reading, GM_GATE_AT_MOST, 0, false, true, true);
        signs_set(reading, GM_GATE_BETWEEN, 0, true, false, true);
        signs_set(reading, GM_GATE_BETWEEN, 0, false, true, true);
        signs_set(reading, GM_GATE_BETWEEN, 0, true, true, true);
        of = "a limit that is not used is minus zero";
        not_legal(sheet_with(reading, GM_GATE_OPEN, sign, 0));
        not_legal(sheet_with(reading, GM_GATE_OPEN, 0, sign));
        not_legal(sheet_with(reading, GM_GATE_AT_MOST, sign, twenty));
        signs_set(reading, GM_GATE_AT_MOST, twenty, true, false, false);
    }
    of = "";
}

/* Fills a slot by hand: docs/BOOK.md, "A slot". */
static void fill(size_t slot, const uint8_t *declaration) {
    uint8_t *at = book + 31 + HOUSES + 21 * slot;
    at[0] = 1;
    memcpy(at + 1, declaration, GM_DECLARATION_BYTES);
}

/* A book as the calls of an earlier version could leave it, all of it of a declaration that is not plausible now. House 0 published at
 * number 0; of sender 3 it recorded the SEND, the ECHO of house 1 and the READYs of houses 1 and 2, and it sent its own READY, which
 * delivered there when it came. Nothing that is recorded is judged: the book is legal, waits, returns, tells again what was sent, and
 * helps. What comes again is 5, before 7; and so is what comes first, so that it is never delivered. `other` is not plausible either. */
static void book_of_before(const uint8_t *recorded, const uint8_t *other) {
    enum { ENTRY = 1 + 3 * (2 * HOUSES + 3) };
    static const size_t slots[] = {0, ENTRY, ENTRY + 1 + 1, ENTRY + 1 + HOUSES + 1, ENTRY + 1 + HOUSES + 2, ENTRY + 1 + 2 * HOUSES};
    so(open_as(HOUSES, 0, DOWN, LIMIT) == GM_ACCEPTED, "a fresh book, to be filled by hand");
    for (size_t i = 0; i < sizeof slots / sizeof *slots; i++) {
        fill(slots[i], recorded);
    }
    memcpy(before, book, BOOK);
    gm_waiting_answer next = gm_waiting(book, BOOK);
    so(next.answer == GM_ACCEPTED, "recorded: legal");
    so(next.waits && next.number == 0 && next.sender == 3, "recorded: the entry waits");
    so(gm_return(book, BOOK).answer == GM_ACCEPTED, "recorded: a return 0");
    walk_of(recorded);
    so(refused(receive(0, GM_SEND, 2026, 0, recorded), GM_NOT_PLAUSIBLE), "recorded: receiving 5, the SEND that the walk gave");
    so(refused(receive(0, GM_ECHO, 2026, 3, recorded), GM_NOT_PLAUSIBLE), "recorded: receiving 5, the ECHO that the walk gave");
    so(refused(receive(0, GM_READY, 2026, 3, recorded), GM_NOT_PLAUSIBLE), "recorded: receiving 5, the READY that the walk gave");
    so(refused(receive(3, GM_SEND, 2026, 3, recorded), GM_NOT_PLAUSIBLE), "recorded: receiving 5 before 7, a SEND");
    so(refused(receive(1, GM_ECHO, 2026, 3, recorded), GM_NOT_PLAUSIBLE), "recorded: receiving 5 before 7, an ECHO");
    so(refused(receive(2, GM_READY, 2026, 3, recorded), GM_NOT_PLAUSIBLE), "recorded: receiving 5 before 7, a READY");
    so(refused(receive(1, GM_SEND, 2026, 3, recorded), GM_NOT_PLAUSIBLE), "recorded: receiving 5 before 6");
    so(refused(receive(1, GM_ECHO, 2026, 3, other), GM_NOT_PLAUSIBLE), "recorded: receiving 5 before 13, an ECHO");
    so(refused(receive(1, GM_ECHO, 2026, 3, lot77), GM_CONFLICT), "recorded: receiving 13, an ECHO");
    so(refused(gm_publish(book, BOOK, 0, recorded), GM_NOT_PLAUSIBLE), "recorded: publishing 5 before 8");
    so(refused(gm_publish(book, BOOK, 0, lot77), GM_ALREADY_PUBLISHED), "recorded: publishing 8");
    fill(ENTRY + 2 + 2 * HOUSES, recorded);
    next = gm_waiting(book, BOOK);
    so(next.answer == GM_ACCEPTED && !next.waits, "delivered: legal, and none waits");
    so(receive(2, GM_SEND, 2026, 2, lot77).gives, "recorded: another entry goes on");
    so(helped(hear_request(3)), "recorded: a request 0");
}

/* No colonies with no kilograms passed up to 3.0.0, and finite readings below zero up to 4.0.0. Minus infinity never did, and may stand in
 * a legal book all the same. */
static void books_of_before(void) {
    uint8_t lot[GM_DECLARATION_BYTES];
    of = "no colonies";
    book_of_before(nothing, no_bees);
    for (size_t reading = 0; reading < READINGS; reading++) {
        for (size_t i = 0; i < BELOW; i++) {
            of = below_names[i];
            book_of_before(lot_with(lot, reading, below[i]), nothing);
        }
    }
    of = "";
}

/* ---- receiving by entry where it is not receiving: on a book that is not legal */

/* The slots of an entry, and of the book: slot 0 has what house 0 published, and then come the entries, sender by sender. */
enum { ENTRY_SLOTS = 2 * HOUSES + 3, SLOTS = 1 + HOUSES * ENTRY_SLOTS };

static size_t entry_of(size_t sender) { return 1 + sender * ENTRY_SLOTS; }

static gm_outcome by_entry(uint32_t house, uint8_t kind, uint32_t season, uint8_t sender, uint8_t number, const uint8_t *declaration) {
    gm_written message = gm_write(kind, season, sender, number, declaration);
    return gm_receive_entry(book, BOOK, house, message.message, sizeof message.message);
}

static gm_outcome ask_by_entry(uint32_t asker) { return gm_receive_entry(book, BOOK, asker, request, GM_REQUEST_BYTES); }

/* A fresh book with one slot in no form: its first byte is 2, or one of its 20 is not zero though it is empty. */
static void spoil(size_t slot, size_t byte) {
    so(open_as(HOUSES, 0, DOWN, LIMIT) == GM_ACCEPTED, "a fresh book, to be spoilt");
    book[31 + HOUSES + 21 * slot + byte] = byte == 0 ? 2 : 0x10;
    memcpy(before, book, BOOK);
    so(gm_waiting(book, BOOK).answer == GM_NO_LEGAL_BOOK, "waiting tests the whole book");
    so(refused(gm_publish(book, BOOK, 0, lot77), GM_NO_LEGAL_BOOK), "publishing tests the whole book");
    so(refused(gm_receive(book, BOOK, 0, request, GM_REQUEST_BYTES), GM_NO_LEGAL_BOOK), "receiving tests the whole book");
}

/* In the named entry: 1, after 2, 3 and 4 for the sender or the number, and before 4 for the house and all else. A request names no entry,
 * and is accepted. */
static void spoilt_here(size_t slot, size_t byte, uint8_t sender) {
    uint32_t other = (sender + 1U) % HOUSES;
    gm_written cut = gm_write(GM_ECHO, 2026, sender, 0, lot77);
    spoil(slot, byte);
    for (uint8_t kind = GM_SEND; kind <= GM_READY; kind++) {
        so(refused(by_entry(sender, kind, 2026, sender, 0, lot77), GM_NO_LEGAL_BOOK), "by entry 1 for the entry");
        so(refused(by_entry(HOUSES, kind, 2026, sender, 0, lot77), GM_NO_LEGAL_BOOK), "by entry 1 for the entry, before 4 for the house");
        so(refused(by_entry(sender, kind, 2026, sender, 0, heavy), GM_NO_LEGAL_BOOK), "by entry 1 for the entry, before 5");
        so(refused(by_entry(sender, kind, 2026, HOUSES, 0, lot77), GM_NOT_IN_BOOK), "by entry 4 for the sender");
        so(refused(by_entry(sender, kind, 2026, sender, 1, lot77), GM_NOT_IN_BOOK), "by entry 4 for the number, before 1 for the entry");
        so(refused(by_entry(sender, kind, 2027, sender, 0, lot77), GM_OTHER_SEASON), "by entry 3, before 1 for the entry");
    }
    so(refused(by_entry(other, GM_SEND, 2026, sender, 0, lot77), GM_NO_LEGAL_BOOK), "by entry 1 for the entry, before 6");
    so(refused(gm_receive_entry(book, BOOK, sender, cut.message, 35), GM_MALFORMED), "by entry 2, before 1 for the entry");
    so(refused(ask_by_entry(HOUSES), GM_NOT_IN_BOOK), "by entry 4, a request");
    for (uint8_t times = 1; times <= LIMIT; times++) {
        so(helped(ask_by_entry(sender)), "by entry 0, a request: no slot is tested");
        before[31 + sender] = times;
        so(untouched(), "by entry 0, a request: it is counted, and no other byte changes");
    }
    so(refused(ask_by_entry(sender), GM_HELPED_ENOUGH), "by entry 14");
}

/* Elsewhere: it is not seen, and stays as it is. The named entry goes as on a legal book. */
static void spoilt_elsewhere(size_t slot, size_t byte, uint8_t sender) {
    uint32_t other = (sender + 1U) % HOUSES;
    uint8_t *entry = book + 31 + HOUSES + 21 * entry_of(sender);
    spoil(slot, byte);
    gm_outcome got = by_entry(sender, GM_SEND, 2026, sender, 0, lot77);
    gm_written echo = gm_write(GM_ECHO, 2026, sender, 0, lot77);
    so(got.answer == GM_ACCEPTED && got.gives && memcmp(got.message, echo.message, 36) == 0, "by entry 0: a SEND, spoilt elsewhere");
    for (uint32_t house = 1; house < HOUSES; house++) {
        got = by_entry(house, GM_READY, 2026, sender, 0, lot77);
        so(got.answer == GM_ACCEPTED && got.gives == (house == 2) && got.delivers == (house == 3), "by entry 0: READYs, spoilt elsewhere");
    }
    so(entry[0] == 1 && memcmp(entry + 1, lot77, 20) == 0, "by entry: the SEND is recorded");
    memcpy(before + (entry - book), entry, 21 * ENTRY_SLOTS);
    so(untouched(), "by entry: no byte outside the named entry changes");
    so(refused(by_entry(sender, GM_SEND, 2026, sender, 0, lot77), GM_ALREADY_ACCEPTED), "by entry 7, spoilt elsewhere");
    so(refused(by_entry(sender, GM_SEND, 2026, sender, 0, light), GM_CONFLICT), "by entry 13, spoilt elsewhere");
    so(refused(by_entry(other, GM_SEND, 2026, sender, 0, lot77), GM_NOT_FROM_SENDER), "by entry 6, spoilt elsewhere");
    so(refused(by_entry(0, GM_ECHO, 2026, sender, 0, heavy), GM_NOT_PLAUSIBLE), "by entry 5, spoilt elsewhere");
    so(refused(by_entry(HOUSES, GM_ECHO, 2026, sender, 0, lot77), GM_NOT_IN_BOOK), "by entry 4 for the house, spoilt elsewhere");
}

/* The head is no legal book's, or the length is another: 1 first of all, whatever comes. */
static void spoilt_head(void) {
    static const size_t at[] = {0, 1, 2, 11, 12, 20, 29, 30, 31, 30 + HOUSES};
    gm_written message = gm_write(GM_ECHO, 2027, HOUSES, 1, heavy);
    for (size_t i = 0; i <= sizeof at / sizeof *at; i++) {
        size_t len = BOOK;
        so(open_as(HOUSES, 0, DOWN, LIMIT) == GM_ACCEPTED, "a fresh book, its head to be spoilt");
        if (i < sizeof at / sizeof *at) {
            book[at[i]] = 0xFF;
        } else {
            len--;
        }
        memcpy(before, book, BOOK);
        so(refused(gm_receive_entry(book, len, 0, message.message, 36), GM_NO_LEGAL_BOOK), "by entry 1 for the head, before 3, 4 and 5");
        so(refused(gm_receive_entry(book, len, HOUSES, message.message, 35), GM_NO_LEGAL_BOOK), "by entry 1 for the head, before 2");
        so(refused(gm_receive_entry(book, len, 0, request, GM_REQUEST_BYTES), GM_NO_LEGAL_BOOK), "by entry 1 for the head, a request");
    }
}

static void receiving_by_entry(void) {
    static const size_t bytes[] = {0, 1, 20};
    spoilt_head();
    for (size_t slot = 0; slot < SLOTS; slot++) {
        for (size_t i = 0; i < sizeof bytes / sizeof *bytes; i++) {
            for (uint8_t sender = 0; sender < HOUSES; sender++) {
                bool here = slot >= entry_of(sender) && slot < entry_of(sender + 1U);
                (here ? spoilt_here : spoilt_elsewhere)(slot, bytes[i], sender);
            }
        }
    }
}

/* ---- the roll: what a call leaves is worked out here too, line by line and from the bits */

/* One line more than a roll may have. */
static gm_line roll[GM_MOST_LINES + 1], roll_before[GM_MOST_LINES + 1];
static gm_totals totals, totals_before;
/* The lines that are lent. */
static size_t lent;
enum { LINES = 6, KILOGRAMS = 800, SEVENTEEN = 0x418C0000, HALF = 0x3F000000 };
static const uint32_t not_finite[] = {0x7FC00000, 0x7F800001, 0xFFFFFFFF, 0x7F800000, 0xFF800000};
enum { NOT_FINITE = sizeof not_finite / sizeof *not_finite };
/* Finite moistures in ascending order, some of them denormal, and in the middle both zeros, which are equal. */
static const uint32_t ascending[] = {0xFF7FFFFF, 0xC0400000, 0xBF000000, 0x80800000, 0x80000002, 0x80000001, 0x80000000,
                                     0x00000000, 0x00000001, 0x00000002, 0x00800000, 0x41A00000, 0x7F7FFFFF};
enum { MOISTURES = sizeof ascending / sizeof *ascending };

static gm_line line_of(uint32_t lot, uint32_t moisture) {
    gm_line line = {lot, 40, KILOGRAMS, moisture, HALF};
    return line;
}

static uint8_t enter(gm_line line) { return gm_roll_insert(roll, lent, &totals, line); }
static uint8_t strike(uint32_t lot) { return gm_roll_strike(roll, lent, &totals, lot); }

static void keep_roll(void) {
    memcpy(roll_before, roll, sizeof roll);
    totals_before = totals;
}

/* The line behind those that are lent is looked at too. */
static bool same_lines(void) {
    size_t count = lent > GM_MOST_LINES ? lent : lent + 1;
    return memcmp(roll, roll_before, count * sizeof *roll) == 0;
}

/* Neither changed. Both have no padding, so that all of their bytes are compared. */
static bool same_roll(void) { return same_lines() && memcmp(&totals, &totals_before, sizeof totals) == 0; }

/* Larger where the float is higher, and the same where two are equal, as both zeros are. */
static long long height_of(uint32_t bits) {
    long long far = bits & 0x7FFFFFFF;
    return bits & 0x80000000 ? -far : far;
}

/* The totals of so many first lines. */
static gm_totals counted(size_t count) {
    gm_totals found = gm_empty_totals();
    for (; found.lines < count; found.lines++) {
        const gm_line *line = &roll[found.lines];
        found.kilograms += line->kilograms;
        if (found.measured == 0 || height_of(line->moisture) > height_of(found.moisture)) {
            found.moisture = line->moisture;
        }
        found.measured = 1;
    }
    return found;
}

static bool is_counted(size_t count) {
    gm_totals wanted = counted(count);
    return memcmp(&totals, &wanted, sizeof totals) == 0;
}

/* Accepted: the line stands at its place, those behind it one on, and every other line is as it was. */
static bool enters(gm_line line) {
    size_t count = totals.lines, at = 0;
    keep_roll();
    while (at < count && roll[at].lot < line.lot) {
        at++;
    }
    memcpy(roll_before + at + 1, roll + at, (count - at) * sizeof *roll);
    roll_before[at] = line;
    return enter(line) == GM_ACCEPTED && same_lines() && is_counted(count + 1);
}

/* Accepted: those behind the lot one back, the line that was the last in use is zeros, and every other line is as it was. */
static bool strikes(uint32_t lot) {
    size_t count = totals.lines, at = 0;
    keep_roll();
    while (at + 1 < count && roll[at].lot != lot) {
        at++;
    }
    memcpy(roll_before + at, roll + at + 1, (count - at - 1) * sizeof *roll);
    memset(roll_before + count - 1, 0, sizeof *roll);
    return strike(lot) == GM_ACCEPTED && same_lines() && is_counted(count - 1);
}

static bool entering_refused(gm_line line, uint8_t answer) {
    keep_roll();
    return enter(line) == answer && same_roll();
}

static bool striking_refused(uint32_t lot, uint8_t answer) {
    keep_roll();
    return strike(lot) == answer && same_roll();
}

/* So many lines are lent and none is in use: they hold what no line in use may hold. */
static void empty_roll(size_t lines) {
    lent = lines;
    memset(roll, 0xFF, sizeof roll);
    totals = gm_empty_totals();
}

/* Four lots of six lines, the highest moisture in the third. The first free line might stand as the next one in use. */
static void four_lots(void) {
    static const uint32_t moistures[] = {0x80000000, 0x00000001, SEVENTEEN, 0xC0400000};
    empty_roll(LINES);
    for (uint32_t i = 0; i < 4; i++) {
        so(enters(line_of(10 * (i + 1), moistures[i])), "entering 0");
    }
    roll[4] = line_of(50, HALF);
}

static void lines_as_bytes(void) {
    gm_line line = gm_roll_line(lot77);
    so(line.lot == 77 && line.colonies == 40 && line.kilograms == KILOGRAMS && line.moisture == SEVENTEEN && line.conductivity == HALF,
       "the line of lot 77");
    uint8_t any[GM_TOTALS_BYTES], same[GM_TOTALS_BYTES];
    for (uint32_t i = 0; i < 256; i++) {
        for (uint32_t place = 0; place < sizeof any; place++) {
            any[place] = (i * 37 + place * 101 + 1) & 0xFF;
        }
        line = gm_roll_line(any);
        so(line.lot == gm_get_word(any) && line.moisture == gm_get_word(any + 12), "the line of any 20 bytes");
        gm_line_to_bytes(same, &line);
        so(memcmp(same, any, GM_DECLARATION_BYTES) == 0, "a line's 20 bytes are its declaration's");
        gm_totals_from_bytes(&totals, any);
        so(totals.kilograms >> 32 == gm_get_word(any) && (totals.kilograms & UINT32_MAX) == gm_get_word(any + 4) &&
               totals.lines >> 32 == gm_get_word(any + 8) && (totals.lines & UINT32_MAX) == gm_get_word(any + 12) &&
               totals.moisture == gm_get_word(any + 16) && totals.measured == gm_get_word(any + 20),
           "the totals of any 24 bytes");
        gm_totals_to_bytes(same, &totals);
        so(memcmp(same, any, sizeof any) == 0, "24 bytes, told and made again");
    }
    totals = gm_empty_totals();
    gm_totals_to_bytes(same, &totals);
    so(is_zero(same, sizeof same), "empty totals are zeros");
}

/* 20 from either call, whatever else is wrong. `good` would be entered on the roll as it was. */
static void not_sound(const char *what, gm_line good) {
    of = what;
    gm_line bad = good, there = roll[0];
    bad.moisture = 0x7FC00000;
    so(entering_refused(good, GM_ROLL_NOT_SOUND), "entering 20");
    so(entering_refused(bad, GM_ROLL_NOT_SOUND), "entering 20 before 21");
    so(entering_refused(there, GM_ROLL_NOT_SOUND), "entering 20 before 22");
    so(striking_refused(there.lot, GM_ROLL_NOT_SOUND), "striking 20");
    so(striking_refused(good.lot, GM_ROLL_NOT_SOUND), "striking 20 before 24");
    keep_roll();
    so(gm_roll_test(roll, lent, &totals) == GM_ROLL_NOT_SOUND && same_roll(), "a stored roll 20");
    of = "";
}

/* Of four lots, each line and each reading; and what the totals would be of the line as it then is. */
static void readings_not_finite(gm_line good) {
    for (size_t at = 0; at < 4; at++) {
        for (size_t i = 0; i < NOT_FINITE; i++) {
            four_lots();
            roll[at].conductivity = not_finite[i];
            not_sound("a conductivity that is not finite", good);
            four_lots();
            roll[at].moisture = not_finite[i];
            not_sound("a moisture that is not finite", good);
            totals.moisture = not_finite[i];
            not_sound("a moisture that is not finite, in the totals too", good);
        }
    }
}

/* One field of the totals is another. */
static void totals_of_others(gm_line good) {
    static const uint64_t kilograms[] = {1, (uint64_t)1 << 32, (uint64_t)1 << 63, UINT32_MAX};
    static const uint32_t moistures[] = {SEVENTEEN + 1, SEVENTEEN - 1, SEVENTEEN ^ 0x80000000, 0x00000001, 0x80000000, 0, 0xC0400000};
    static const uint32_t measured[] = {0, 2, 0x80000001, 0x01000000, UINT32_MAX};
    for (size_t i = 0; i < sizeof kilograms / sizeof *kilograms; i++) {
        four_lots();
        totals.kilograms += kilograms[i];
        not_sound("more kilograms", good);
        four_lots();
        totals.kilograms -= kilograms[i];
        not_sound("fewer kilograms", good);
    }
    for (size_t i = 0; i < sizeof moistures / sizeof *moistures; i++) {
        four_lots();
        totals.moisture = moistures[i];
        not_sound("another highest moisture", good);
    }
    for (size_t i = 0; i < sizeof measured / sizeof *measured; i++) {
        four_lots();
        totals.measured = measured[i];
        not_sound("another mark for whether there is a highest moisture", good);
    }
    four_lots();
    totals.lines = 3;
    not_sound("one line fewer in use", good);
    four_lots();
    totals.lines = 5;
    not_sound("one line more in use", good);
    four_lots();
    totals = gm_empty_totals();
    totals.kilograms = 1;
    not_sound("kilograms of an empty roll", good);
    totals = gm_empty_totals();
    totals.moisture = 1;
    not_sound("a moisture of an empty roll", good);
    totals = gm_empty_totals();
    totals.measured = 1;
    not_sound("a highest moisture of an empty roll", good);
    totals = gm_empty_totals();
    totals.lines = 1;
    not_sound("a line in use with totals of none", good);
}

static void rolls_not_sound(void) {
    gm_line good = line_of(25, HALF);
    four_lots();
    so(gm_roll_test(roll, lent, &totals) == GM_ACCEPTED, "a stored roll 0");
    lent = GM_MOST_LINES + 1;
    not_sound("a roll too long", good);
    totals = gm_empty_totals();
    not_sound("an empty roll too long", good);
    four_lots();
    lent = 3;
    not_sound("more lines in use than are lent", good);
    lent = 0;
    not_sound("lines in use and none lent", good);
    lent = LINES;
    totals.lines = (size_t)-1;
    not_sound("lines in use as many as a number may say", good);
    for (size_t at = 0; at < 3; at++) {
        four_lots();
        roll[at + 1].lot = roll[at].lot;
        not_sound("a lot twice", good);
        four_lots();
        roll[at].lot = roll[at + 1].lot + 1;
        not_sound("not in ascending lot order", good);
        four_lots();
        roll[at].lot |= 0x80000000;
        not_sound("not in ascending lot order, as numbers", good);
    }
    readings_not_finite(good);
    totals_of_others(good);
}

/* Lots in no order, then each again, and one for which no line is free. */
static void entering(void) {
    static const uint32_t lots[LINES] = {5, 0, UINT32_MAX, 3, 0x80000000, 4};
    empty_roll(LINES);
    so(striking_refused(5, GM_LOT_NOT_ON_ROLL) && striking_refused(UINT32_MAX, GM_LOT_NOT_ON_ROLL), "striking 24: an empty roll");
    for (size_t i = 0; i < LINES; i++) {
        for (size_t k = 0; k < NOT_FINITE; k++) {
            gm_line bad = line_of(lots[i], not_finite[k]);
            so(entering_refused(bad, GM_READING_NOT_FINITE), "entering 21: the moisture");
            bad = line_of(lots[i], HALF);
            bad.conductivity = not_finite[k];
            so(entering_refused(bad, GM_READING_NOT_FINITE), "entering 21: the conductivity");
        }
        so(striking_refused(lots[i], GM_LOT_NOT_ON_ROLL), "striking 24");
        so(enters(line_of(lots[i], ascending[i])), "entering 0");
        for (size_t k = 0; k <= i; k++) {
            so(entering_refused(line_of(lots[k], ascending[k]), GM_LOT_ALREADY_THERE), "entering 22: the same line");
            so(entering_refused(line_of(lots[k], SEVENTEEN), GM_LOT_ALREADY_THERE), "entering 22: another line of the lot");
            so(entering_refused(line_of(lots[k], not_finite[0]), GM_READING_NOT_FINITE), "entering 21 before 22");
        }
    }
    so(entering_refused(line_of(6, HALF), GM_NO_LINE_FREE), "entering 23");
    so(entering_refused(line_of(6, not_finite[0]), GM_READING_NOT_FINITE), "entering 21 before 23");
    so(entering_refused(line_of(5, HALF), GM_LOT_ALREADY_THERE), "entering 22 before 23");
    lent = LINES + 1;
    so(enters(line_of(6, HALF)), "entering 0: a line more is lent");
}

/* The first, the last and one between, until the roll is empty; and what is struck may be entered again. */
static void striking(void) {
    static const uint32_t lots[] = {20, 10, 40, 30};
    four_lots();
    for (size_t i = 0; i < sizeof lots / sizeof *lots; i++) {
        so(striking_refused(lots[i] + 1, GM_LOT_NOT_ON_ROLL), "striking 24");
        so(strikes(lots[i]), "striking 0");
        so(striking_refused(lots[i], GM_LOT_NOT_ON_ROLL), "striking 24: struck before");
        so(striking_refused(50, GM_LOT_NOT_ON_ROLL), "striking 24: a free line has it");
        so(enters(line_of(lots[i], SEVENTEEN)) && strikes(lots[i]), "entering 0: struck before");
    }
    so(totals.lines == 0 && is_counted(0) && is_zero((const uint8_t *)roll, 4 * sizeof *roll), "an empty roll again");
    so(enters(line_of(50, HALF)), "entering 0: a free line has it");
}

/* Each two moistures, on the lower lot and on the higher, entered in either order, and each struck first. */
static void two_moistures(size_t at_low, size_t at_high, bool low_first) {
    gm_line low = line_of(1, ascending[at_low]), high = line_of(2, ascending[at_high]);
    bool both_zero = low.moisture << 1 == 0 && high.moisture << 1 == 0;
    for (uint32_t struck = 1; struck <= 2; struck++) {
        empty_roll(2);
        so(enters(low_first ? low : high) && enters(low_first ? high : low), "entering 0: two moistures");
        so(totals.moisture == (both_zero || at_low > at_high ? low : high).moisture, "the highest moisture; of both zeros the lower lot's");
        if (both_zero && at_low != at_high) {
            totals.moisture = high.moisture;
            not_sound("of equal moistures the higher lot's", line_of(3, HALF));
            totals.moisture = low.moisture;
        }
        so(strikes(struck) && strikes(3 - struck), "striking 0: two moistures");
    }
}

static void moistures(void) {
    for (size_t low = 0; low < MOISTURES; low++) {
        for (size_t high = 0; high < MOISTURES; high++) {
            two_moistures(low, high, true);
            two_moistures(low, high, false);
        }
    }
}

static void many_kilograms(void) {
    empty_roll(3);
    for (uint32_t lot = 0; lot < 3; lot++) {
        gm_line heaviest = line_of(lot, HALF);
        heaviest.kilograms = UINT32_MAX;
        so(enters(heaviest), "entering 0: the most kilograms");
    }
    so(totals.kilograms == 3 * (uint64_t)UINT32_MAX, "kilograms of 64 bits");
    so(strikes(1) && totals.kilograms == 2 * (uint64_t)UINT32_MAX, "kilograms of 64 bits, one lot struck");
}

/* 4,096 lines, all but one in use, laid by hand. */
static void most_lines(void) {
    empty_roll(GM_MOST_LINES);
    for (uint32_t i = 0; i < GM_MOST_LINES - 1; i++) {
        roll[i] = line_of(2 * i + 2, ascending[i % MOISTURES]);
    }
    totals = counted(GM_MOST_LINES - 1);
    static const uint32_t free_lots[] = {0, 1, 4097, 8191, UINT32_MAX};
    static const uint32_t used_lots[] = {2, 4, 4096, 8188, 8190};
    for (size_t i = 0; i < sizeof free_lots / sizeof *free_lots; i++) {
        so(striking_refused(free_lots[i], GM_LOT_NOT_ON_ROLL), "striking 24: the most lines");
        so(enters(line_of(free_lots[i], SEVENTEEN)), "entering 0: the last free line of the most");
        so(entering_refused(line_of(free_lots[i], SEVENTEEN), GM_LOT_ALREADY_THERE), "entering 22: the most lines");
        so(entering_refused(line_of(3, SEVENTEEN), GM_NO_LINE_FREE), "entering 23: the most lines");
        so(strikes(free_lots[i]), "striking 0: the most lines");
        gm_line used = roll[used_lots[i] / 2 - 1];
        so(used.lot == used_lots[i] && strikes(used.lot) && enters(used), "struck and entered again: the most lines");
    }
    /* its lot is in order and its readings are finite, so that the last line alone is wrong */
    roll[GM_MOST_LINES - 2].lot = roll[GM_MOST_LINES - 3].lot;
    not_sound("a lot twice, at the end of the most lines", line_of(1, HALF));
}

static void null_roll(void) {
    totals = gm_empty_totals();
    so(gm_roll_insert(NULL, 0, &totals, line_of(1, HALF)) == GM_NO_LINE_FREE, "entering 23, null roll");
    so(gm_roll_insert(NULL, 0, &totals, line_of(1, not_finite[0])) == GM_READING_NOT_FINITE, "entering 21, null roll");
    so(gm_roll_strike(NULL, 0, &totals, 1) == GM_LOT_NOT_ON_ROLL, "striking 24, null roll");
    so(gm_roll_test(NULL, 0, &totals) == GM_ACCEPTED && is_counted(0), "a stored roll 0, null roll");
    totals.lines = 1;
    so(gm_roll_insert(NULL, 0, &totals, line_of(1, HALF)) == GM_ROLL_NOT_SOUND, "entering 20, null roll");
    so(gm_roll_strike(NULL, 0, &totals, 1) == GM_ROLL_NOT_SOUND, "striking 20, null roll");
}

static void rolls(void) {
    lines_as_bytes();
    rolls_not_sound();
    entering();
    striking();
    moistures();
    many_kilograms();
    most_lines();
    null_roll();
}

static void judging_writing_reading(void) {
    so(gm_judge(sheet, sizeof sheet, lot77) == GM_ACCEPTED, "judging 0");
    so(gm_judge(sheet, sizeof sheet, heavy) == GM_NOT_PLAUSIBLE, "judging 5");
    so(gm_judge(sheet, sizeof sheet - 1, heavy) == GM_SHEET_NOT_LEGAL, "judging 10");
    gm_written wrote = gm_write(GM_SEND, 2026, 2, 1, lot77);
    so(wrote.answer == GM_ACCEPTED && memcmp(wrote.message, whole, 36) == 0, "writing 0");
    wrote = gm_write(4, 2026, 2, 1, lot77);
    so(wrote.answer == GM_MALFORMED && is_zero(wrote.message, 36), "writing 2");
    wrote = gm_write(GM_REQUEST, 2026, 2, 1, lot77);
    so(wrote.answer == GM_MALFORMED && is_zero(wrote.message, 36), "writing 2: kind 9");
    gm_read_answer got = gm_read(whole, sizeof whole);
    so(got.answer == GM_ACCEPTED && got.kind == GM_SEND && got.season == 2026 && got.sender == 2 && got.number == 1, "reading 0");
    so(memcmp(got.declaration, lot77, 20) == 0, "reading the declaration");
    got = gm_read(request, GM_REQUEST_BYTES);
    so(got.answer == GM_ACCEPTED && got.kind == GM_REQUEST && got.season == 2026, "reading a request");
    so(got.sender == 0 && got.number == 0 && is_zero(got.declaration, 20), "a request has a season alone");
    got = gm_read(whole, sizeof whole - 1);
    so(got.answer == GM_MALFORMED && got.kind == 0 && got.season == 0 && got.sender == 0 && got.number == 0, "reading 2");
    so(is_zero(got.declaration, 20), "reading 2 gives zeros");
    so(gm_read(request, sizeof request).answer == GM_MALFORMED, "reading 2: a request of 12 bytes");
}

static void null_with_length_0(void) {
    memcpy(before, book, BOOK);
    so(refused(gm_publish(NULL, 0, 0, lot77), GM_NO_LEGAL_BOOK), "publishing, null book");
    so(refused(receives(NULL, 0, 0, whole, sizeof whole), GM_NO_LEGAL_BOOK), "receiving, null book");
    so(refused(receives(NULL, 0, 0, request, GM_REQUEST_BYTES), GM_NO_LEGAL_BOOK), "a request, null book");
    so(refused(receives(NULL, 0, 0, NULL, 0), GM_NO_LEGAL_BOOK), "receiving, both null");
    so(refused(receives(book, BOOK, 0, NULL, 0), GM_MALFORMED), "receiving, null message");
    so(gm_open(NULL, 0, HOUSES, 1, 0, DOWN, LIMIT, 2026, sheet, sizeof sheet) == GM_WRONG_LENGTH, "opening, null book");
    so(gm_open(book, BOOK, HOUSES, 1, 0, DOWN, LIMIT, 2026, NULL, 0) == GM_SHEET_NOT_LEGAL && untouched(), "opening, null sheet");
    so(gm_return(NULL, 0).answer == GM_NO_LEGAL_BOOK, "a return, null book");
    so(not_sent(gm_sent(NULL, 0, GM_SEND, 0, 0), GM_NO_LEGAL_BOOK), "sent, null book");
    so(not_sent(gm_first_sent(NULL, 0).sent, GM_NO_LEGAL_BOOK), "a walk, null book");
    so(gm_waiting(NULL, 0).answer == GM_NO_LEGAL_BOOK, "waiting, null book");
    so(gm_judge(NULL, 0, lot77) == GM_SHEET_NOT_LEGAL, "judging, null sheet");
    so(gm_read(NULL, 0).answer == GM_MALFORMED, "reading, null message");
}

/* Declarations, to the byte as lot77 above has them; every pattern of bits, a NaN's too, comes out as it went in. */
static void declarations(void) {
    uint8_t bytes[GM_DECLARATION_BYTES];
    gm_declaration_to_bytes(bytes, &(gm_declaration){77, 40, 800, 17.5F, 0.5F});
    so(memcmp(bytes, lot77, sizeof bytes) == 0, "lot 77 from numbers and floats");
    gm_declaration back;
    gm_declaration_from_bytes(&back, lot77);
    so(back.lot == 77 && back.colonies == 40 && back.kilograms == 800 && back.moisture == 17.5F && back.conductivity == 0.5F,
       "lot 77 told");
    /* quiet and signalling NaNs, infinities, both zeros, the smallest, the largest */
    static const uint32_t patterns[] = {0x7FC00001, 0x7F800001, 0xFFA00000, 0xFFFFFFFF, 0x7F800000, 0xFF800000,
                                        0x00000000, 0x80000000, 0x00000001, 0x80000001, 0x7F7FFFFF, 0x41A00000};
    for (size_t i = 0; i < sizeof patterns / sizeof *patterns; i++) {
        uint8_t same[GM_DECLARATION_BYTES];
        for (uint8_t place = 0; place < sizeof same; place++) {
            uint32_t word = place < 16 ? patterns[i] : patterns[i] ^ 0x80000000;
            same[place] = (word >> (24 - 8 * (place % 4))) & 0xFF;
        }
        gm_declaration_from_bytes(&back, same);
        so(back.lot == patterns[i] && back.kilograms == patterns[i], "a number of 32 bits told");
        gm_declaration_to_bytes(bytes, &back);
        so(memcmp(bytes, same, sizeof same) == 0, "20 bytes, told and made again");
    }
}

static void sheets(void) {
    uint8_t made[GM_SHEET_BYTES];
    gm_sheet_to_bytes(made, 20, gm_gate_at_most(20.0F), gm_gate_open());
    so(memcmp(made, sheet, sizeof made) == 0, "a sheet: at most, open");
    static const uint8_t other[GM_SHEET_BYTES] = {0xFF, 0xFE, 0xFD, 0xFC, GM_GATE_OPEN, 0, 0, 0, 0, 0, 0, 0, 0,
                                                  GM_GATE_BETWEEN, 0x80, 0, 0, 0, 0x3F, 0x4C, 0xCC, 0xCD};
    gm_sheet_to_bytes(made, 0xFFFEFDFC, gm_gate_open(), gm_gate_between(-0.0F, 0.8F));
    so(memcmp(made, other, sizeof made) == 0, "a sheet: open, between");
    so(gm_judge(made, sizeof made, lot77) == GM_ACCEPTED, "a made sheet is legal");
    gm_sheet_to_bytes(made, 20, gm_gate_between(2.0F, 1.0F), gm_gate_open());
    so(gm_judge(made, sizeof made, lot77) == GM_SHEET_NOT_LEGAL, "a low limit above its high one is made, and not legal");
    static const uint8_t under[GM_SHEET_BYTES] = {0, 0, 0, 20, GM_GATE_AT_MOST, 0, 0, 0, 0, 0xC0, 0x40, 0, 0, GM_GATE_OPEN};
    gm_sheet_to_bytes(made, 20, gm_gate_at_most(-3.0F), gm_gate_open());
    so(memcmp(made, under, sizeof made) == 0, "a sheet: at most minus 3");
    so(gm_judge(made, sizeof made, lot77) == GM_SHEET_NOT_LEGAL, "a limit below zero is made, and not legal");
}

static void sentences(void) {
    const char *none = gm_answer_text(GM_HELPED_ENOUGH + 1);
    for (unsigned answer = 0; answer <= 256; answer++) {
        bool known = answer <= GM_WRONG_LENGTH || answer == GM_CONFLICT || answer == GM_HELPED_ENOUGH ||
                     (answer >= GM_ROLL_NOT_SOUND && answer <= GM_LOT_NOT_ON_ROLL);
        so(known == (strcmp(gm_answer_text(answer), none) != 0), "an answer has its sentence, another number has none");
        for (unsigned less = 0; known && less < answer; less++) {
            so(strcmp(gm_answer_text(answer), gm_answer_text(less)) != 0, "no two answers have one sentence");
        }
    }
    so(strcmp(gm_answer_text(GM_CONFLICT),
              "this kind was already accepted from this house on this entry, with a different declaration") == 0,
       "the sentence of 13");
    so(strcmp(gm_answer_text(GM_HELPED_ENOUGH), "this asker was helped d times already") == 0, "the sentence of 14");
    so(strcmp(gm_answer_text(GM_LOT_ALREADY_THERE), "a lot already there") == 0, "the sentence of 22");
    char version[32];
    snprintf(version, sizeof version, "%d.%d.%d", GM_VERSION_MAJOR, GM_VERSION_MINOR, GM_VERSION_PATCH);
    so(strcmp(version, GM_VERSION) == 0, "the version and its three numbers");
}

static void all(void) {
    declarations();
    sheets();
    sentences();
    opening();
    no_legal_book();
    publishing();
    receiving();
    repeating();
    asking();
    returning();
    walking();
    with_one_down();
    most_houses();
    no_colonies();
    readings_below_zero();
    both_zeros();
    limits_below_zero();
    books_of_before();
    judging_writing_reading();
    null_with_length_0();
}

/* In the plain float mode; in one where subnormals are zeros, as a house that is linked with -ffast-math has it, and numbers are rounded
 * up; and back. In each all of it by receiving, and again by receiving by entry; and the roll, which has no part in either. */
int main(void) {
    static const uint32_t modes[] = {0x1F80, 0xDFC0, 0x1F80};
    for (size_t i = 0; i < sizeof modes / sizeof *modes; i++) {
        __asm__ volatile("ldmxcsr %0" : : "m"(modes[i]));
        receives = gm_receive;
        all();
        receiving_by_entry();
        rolls();
        receives = gm_receive_entry;
        all();
    }
    return wrong;
}
