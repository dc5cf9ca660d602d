/* Makes the library's fourteen calls for a program at the other end of two pipes, until its input ends.
 *
 * A question is 53 bytes: the call (1), six numbers (4 each), a declaration (20), the lengths of the book and of the bytes (4 each); then
 * the book, then the bytes, which are a sheet or a message. A reply is the call (1), how many calls came before it (4), the length of the
 * answer (1), the answer field by field, and then the book, the bytes and the declaration as they are afterwards. Numbers are big-endian.
 * What a call does not take is not used.
 *
 * A question of ROLL is a whole sequence on one roll. Its book is the roll's lines, and its bytes are the steps, 32 bytes each: what is
 * done and a number (4 each), then 24 bytes. ROLL_INSERT lends so many lines and enters the line, ROLL_STRIKE lends so many and strikes
 * the lot; WRITE_LINE writes the line at that place, and WRITE_TOTALS the totals, which are zeros at first. The reply has for each call
 * its answer (1), all lines and the totals as they are then. Lines, lots and totals are as they lie in memory, both ways.
 *
 * Each argument is lent with its last byte against a wall, and so is the room for an answer that does not come in registers: to read or
 * write behind it ends the program.
 *
 * Each call is made three times, on the same arguments: in the plain float mode, in one where denormals are zero and results are flushed
 * and cut, and in one where every float exception traps. A reply that differs ends the program, and so does a trap. */
#include "grassmunch.h"

#include <string.h>
#include <sys/mman.h>
#include <unistd.h>

/* A struct of more than 16 bytes is given back, on x86-64, where a pointer says that comes before all arguments and is given back itself.
 * Said so here, the driver chooses the place. The header's declaration checks the arguments, inside __typeof__; those that it makes
 * narrower are made so at the call. */
#pragma clang diagnostic ignored "-Wcast-function-type"
#pragma clang diagnostic ignored "-Wstrict-prototypes"
#pragma clang diagnostic ignored "-Wdeprecated-non-prototype"
#define GIVEN_AT(place, call, ...) ((__typeof__(call(__VA_ARGS__)) * (*)()) call)(place, __VA_ARGS__)

enum { LENGTH, OPEN, PUBLISH, RECEIVE, RECEIVE_ENTRY, RETURN, SENT, WAITING, JUDGE, WRITE, READ, ROLL_LINE, ROLL_INSERT, ROLL_STRIKE };
enum { ROLL = ROLL_STRIKE + 1, WRITE_LINE, WRITE_TOTALS };
enum { BAD_QUESTION = 2, BAD_PIPE = 3, NO_WALL = 4, WROTE_BEFORE = 5, OTHER_PLACE = 6, NO_MODE = 7, MODE_MATTERS = 8 };
enum { NUMBERS = 6, LENGTHS = 1 + 4 * NUMBERS + GM_DECLARATION_BYTES, HEAD = LENGTHS + 8, PAINT = 0xA5 };

/* ---- arguments in their rooms */

/* A wall is as long as the largest page of any machine, so that it is one page or several. A room is so many as hold the longest book, and
 * one more for what is too long. */
enum { WALL = 65536, ROOM = (GM_LONGEST_BOOK + WALL - 1) / WALL * WALL + WALL, MARGIN = 64, ROOMS = 4 };
static uint8_t ground[ROOMS * (ROOM + WALL) + WALL];

/* An argument in its room: it ends at the wall, and stands behind a painted margin. */
typedef struct {
    uint8_t *at;
    size_t length;
} lent;

static uint8_t painted[MARGIN];

static lent lend(size_t room, size_t length) {
    if (length > ROOM - MARGIN) {
        _exit(BAD_QUESTION);
    }
    uint8_t *first = ground + (WALL - (uintptr_t)ground % WALL) % WALL;
    lent argument = {first + room * (ROOM + WALL) + ROOM - length, length};
    memcpy(argument.at - MARGIN, painted, MARGIN);
    return argument;
}

static void build_walls(void) {
    memset(painted, PAINT, MARGIN);
    for (size_t room = 0; room < ROOMS; room++) {
        if (mprotect(lend(room, 0).at, WALL, PROT_NONE) != 0) {
            _exit(NO_WALL);
        }
    }
}

static void check_margin(lent argument) {
    if (memcmp(argument.at - MARGIN, painted, MARGIN) != 0) {
        _exit(WROTE_BEFORE);
    }
}

/* No bytes are lent by a null pointer and by another in turns. */
static uint8_t *pointer(lent argument, uint32_t turn) {
    return argument.length == 0 && turn % 2 == 0 ? NULL : argument.at;
}

/* ---- questions and replies */

/* Takes so many bytes. Only before a question may the input end, and then false is given. */
static bool take(uint8_t *to, size_t length, bool may_end) {
    for (size_t had = 0; had < length;) {
        ptrdiff_t got = read(0, to + had, length - had);
        if (got == 0 && had == 0 && may_end) {
            return false;
        }
        if (got <= 0) {
            _exit(BAD_PIPE);
        }
        had += (size_t)got;
    }
    return true;
}

/* A question: the call, its numbers, and its arguments in their rooms. */
typedef struct {
    uint8_t call;
    uint32_t x[NUMBERS];
    lent declaration, book, bytes;
} question;

static question take_question(const uint8_t head[HEAD]) {
    question asked = {.call = head[0]};
    for (size_t i = 0; i < NUMBERS; i++) {
        asked.x[i] = gm_get_word(head + 1 + 4 * i);
    }
    asked.declaration = lend(0, GM_DECLARATION_BYTES);
    asked.book = lend(1, gm_get_word(head + LENGTHS));
    asked.bytes = lend(2, gm_get_word(head + LENGTHS + 4));
    memcpy(asked.declaration.at, head + LENGTHS - GM_DECLARATION_BYTES, GM_DECLARATION_BYTES);
    take(asked.book.at, asked.book.length, false);
    take(asked.bytes.at, asked.bytes.length, false);
    return asked;
}

/* The reply as it grows: the rooms and a head are always enough. */
static uint8_t reply[ROOMS * ROOM + 128], *pen;

/* A bool goes this way too, so that the other end sees any byte that is left in it. */
static void put(const void *from, size_t length) {
    memcpy(pen, from, length);
    pen += length;
}

static void put_number(uint64_t number, unsigned bytes) {
    while (bytes-- > 0) {
        *pen++ = (number >> 8 * bytes) & 0xFF;
    }
}

static void send_reply(void) {
    for (const uint8_t *had = reply; had < pen;) {
        ptrdiff_t gone = write(1, had, (size_t)(pen - had));
        if (gone <= 0) {
            _exit(BAD_PIPE);
        }
        had += gone;
    }
}

/* ---- answers, field by field */

#define PUT(field) put(&(field), sizeof(field))

/* Room for an answer of this length: painted, so that a byte that the call leaves as it was is seen. */
static lent lend_answer(size_t length) {
    lent room = lend(3, length);
    memset(room.at, PAINT, length);
    return room;
}

/* The answer is where it was to be, and nothing is written before it. */
static void check_answer(lent room, const void *given) {
    if (given != room.at) {
        _exit(OTHER_PLACE);
    }
    check_margin(room);
}

static void put_length(gm_length_answer got) {
    PUT(got.answer);
    put_number(got.length, 8);
}

static void put_outcome(lent room, const gm_outcome *got) {
    check_answer(room, got);
    PUT(got->answer);
    PUT(got->gives);
    PUT(got->message);
    PUT(got->delivers);
    PUT(got->declaration);
    PUT(got->helps);
}

static void put_return(gm_return_answer got) {
    PUT(got.answer);
    PUT(got.request);
}

static void put_sent(lent room, const gm_sent_answer *got) {
    check_answer(room, got);
    PUT(got->answer);
    PUT(got->gives);
    PUT(got->message);
}

static void put_waiting(gm_waiting_answer got) {
    PUT(got.answer);
    PUT(got.waits);
    PUT(got.number);
    PUT(got.sender);
}

static void put_written(lent room, const gm_written *got) {
    check_answer(room, got);
    PUT(got->answer);
    PUT(got->message);
}

static void put_read(lent room, const gm_read_answer *got) {
    check_answer(room, got);
    PUT(got->answer);
    PUT(got->kind);
    put_number(got->season, 4);
    PUT(got->sender);
    PUT(got->number);
    PUT(got->declaration);
}

static void put_line(lent room, const gm_line *got) {
    check_answer(room, got);
    put_number(got->lot, 4);
    put_number(got->colonies, 4);
    put_number(got->kilograms, 4);
    put_number(got->moisture, 4);
    put_number(got->conductivity, 4);
}

/* Makes one call and puts its answer. */
static void make(question asked, uint8_t *book, const uint8_t *bytes) {
    static const size_t lengths[] = {[PUBLISH] = sizeof(gm_outcome),
                                     [RECEIVE] = sizeof(gm_outcome),
                                     [RECEIVE_ENTRY] = sizeof(gm_outcome),
                                     [SENT] = sizeof(gm_sent_answer),
                                     [WRITE] = sizeof(gm_written),
                                     [READ] = sizeof(gm_read_answer),
                                     [ROLL_LINE] = sizeof(gm_line)};
    const uint32_t *x = asked.x;
    const uint8_t *declaration = asked.declaration.at;
    size_t len = asked.book.length, bytes_len = asked.bytes.length;
    lent room = lend_answer(asked.call <= ROLL_LINE ? lengths[asked.call] : 0);
    switch (asked.call) {
    case LENGTH:
        put_length(gm_length(x[0], x[1]));
        return;
    case OPEN:
        put_number(gm_open(book, len, x[0], x[1], x[2], x[3], x[4], x[5], bytes, bytes_len), 1);
        return;
    case PUBLISH:
        put_outcome(room, GIVEN_AT(room.at, gm_publish, book, len, x[0], declaration));
        return;
    case RECEIVE:
        put_outcome(room, GIVEN_AT(room.at, gm_receive, book, len, x[0], bytes, bytes_len));
        return;
    case RECEIVE_ENTRY:
        put_outcome(room, GIVEN_AT(room.at, gm_receive_entry, book, len, x[0], bytes, bytes_len));
        return;
    case RETURN:
        put_return(gm_return(book, len));
        return;
    case SENT:
        put_sent(room, GIVEN_AT(room.at, gm_sent, book, len, (uint8_t)x[0], x[1], x[2]));
        return;
    case WAITING:
        put_waiting(gm_waiting(book, len));
        return;
    case JUDGE:
        put_number(gm_judge(bytes, bytes_len, declaration), 1);
        return;
    case WRITE:
        put_written(room, GIVEN_AT(room.at, gm_write, (uint8_t)x[0], x[1], (uint8_t)x[2], (uint8_t)x[3], declaration));
        return;
    case READ:
        put_read(room, GIVEN_AT(room.at, gm_read, bytes, bytes_len));
        return;
    case ROLL_LINE:
        put_line(room, GIVEN_AT(room.at, gm_roll_line, declaration));
        return;
    default:
        _exit(BAD_QUESTION);
    }
}

/* ---- float modes */

/* The register that rules floats. Its reset value masks every exception and does nothing else; here are the bits of the other two modes. */
enum { PLAIN = 0x1F80, ZEROED = PLAIN | 0x8000 | 0x6000 | 0x0040, TRAPPING = 0 };
static const uint32_t modes[] = {ZEROED, TRAPPING, PLAIN};
enum { MODES = sizeof modes / sizeof *modes };

static bool is_above_zero(const volatile float *x) { return *x > 0.0F; }

/* A compare of the smallest float with 0.0 depends on the mode: where it does not, a test of the modes shows nothing. */
static void check_modes(void) {
    volatile float smallest = 0x1p-149F;
    __builtin_ia32_ldmxcsr(ZEROED);
    bool zeroed = is_above_zero(&smallest);
    __builtin_ia32_ldmxcsr(PLAIN);
    if (zeroed || !is_above_zero(&smallest)) {
        _exit(NO_MODE);
    }
}

/* Makes the call of a question in a mode and puts its answer. */
static void answer(question asked, uint32_t calls, uint32_t mode) {
    __builtin_ia32_ldmxcsr(mode);
    make(asked, pointer(asked.book, calls), pointer(asked.bytes, calls));
    __builtin_ia32_ldmxcsr(PLAIN);
    check_margin(asked.declaration);
    check_margin(asked.book);
    check_margin(asked.bytes);
}

/* What an argument was, so that the next mode has it too. */
typedef struct {
    uint8_t bytes[ROOM];
} kept;

static void keep(kept *was, lent argument) { memcpy(was->bytes, argument.at, argument.length); }

static void restore(lent argument, const kept *was) { memcpy(argument.at, was->bytes, argument.length); }

/* What the pen passes over is there already. */
static void check(const void *from, size_t length) {
    if (memcmp(pen, from, length) != 0) {
        _exit(MODE_MATTERS);
    }
    pen += length;
}

/* Puts all arguments as they are, or checks that they were put so. */
static void each_argument(question asked, void (*puts)(const void *, size_t)) {
    puts(asked.book.at, asked.book.length);
    puts(asked.bytes.at, asked.bytes.length);
    puts(asked.declaration.at, asked.declaration.length);
}

/* The call in each mode, on the same arguments. The first leaves the reply, and the others are the same: a book is long, and is put once. */
static void answer_in_each_mode(question asked, uint32_t calls) {
    static kept book, bytes, declaration;
    static uint8_t again[sizeof(gm_outcome)];
    keep(&book, asked.book);
    keep(&bytes, asked.bytes);
    keep(&declaration, asked.declaration);
    pen = reply;
    put_number(asked.call, 1);
    put_number(calls, 4);
    put_number(0, 1);
    uint8_t *told = pen;
    answer(asked, calls, modes[0]);
    size_t length = (size_t)(pen - told);
    told[-1] = length & 0xFF;
    each_argument(asked, put);
    for (size_t i = 1; i < MODES; i++) {
        restore(asked.book, &book);
        restore(asked.bytes, &bytes);
        restore(asked.declaration, &declaration);
        pen = again;
        answer(asked, calls, modes[i]);
        if (pen != again + length) {
            _exit(MODE_MATTERS);
        }
        pen = told;
        check(again, length);
        each_argument(asked, check);
    }
}

/* ---- rolls */

/* One step on a roll. */
typedef struct {
    uint32_t what, number;
    gm_line line;
    uint32_t lot;
    gm_totals totals;
} step;

enum { STEP = 8 + sizeof(gm_totals) };

static step take_step(const uint8_t from[STEP]) {
    step taken = {.what = gm_get_word(from), .number = gm_get_word(from + 4)};
    memcpy(&taken.line, from + 8, sizeof taken.line);
    memcpy(&taken.lot, from + 8, sizeof taken.lot);
    memcpy(&taken.totals, from + 8, sizeof taken.totals);
    return taken;
}

/* The roll ends at a wall where all its lines are lent, and at the lines that are not where they are not. */
static uint8_t call_on_roll(step taken, lent roll, lent totals, uint32_t calls, uint32_t mode) {
    lent lines = {roll.at, taken.number * sizeof(gm_line)};
    gm_line *at = (gm_line *)(void *)pointer(lines, calls);
    gm_totals *of = (gm_totals *)(void *)totals.at;
    uint8_t answer;
    __builtin_ia32_ldmxcsr(mode);
    if (taken.what == ROLL_INSERT) {
        answer = gm_roll_insert(at, taken.number, of, taken.line);
    } else {
        answer = gm_roll_strike(at, taken.number, of, taken.lot);
    }
    __builtin_ia32_ldmxcsr(PLAIN);
    check_margin(roll);
    check_margin(totals);
    return answer;
}

/* The call in each mode, on the same roll and totals. The first leaves the reply. */
static void answer_on_roll(step taken, lent roll, lent totals, uint32_t calls) {
    static kept lines, sums;
    keep(&lines, roll);
    keep(&sums, totals);
    uint8_t *told = pen;
    put_number(call_on_roll(taken, roll, totals, calls, modes[0]), 1);
    put(roll.at, roll.length);
    put(totals.at, totals.length);
    for (size_t i = 1; i < MODES; i++) {
        restore(roll, &lines);
        restore(totals, &sums);
        uint8_t again = call_on_roll(taken, roll, totals, calls, modes[i]);
        pen = told;
        check(&again, 1);
        check(roll.at, roll.length);
        check(totals.at, totals.length);
    }
}

/* What the caller writes, with no call. */
static void write_on_roll(step taken, lent roll, lent totals) {
    if (taken.what == WRITE_TOTALS) {
        memcpy(totals.at, &taken.totals, sizeof taken.totals);
    } else if (taken.what == WRITE_LINE && taken.number < roll.length / sizeof taken.line) {
        memcpy(roll.at + taken.number * sizeof taken.line, &taken.line, sizeof taken.line);
    } else {
        _exit(BAD_QUESTION);
    }
}

/* A whole sequence. A reply that gets long is sent in pieces. */
static void answer_sequence(question asked, uint32_t calls) {
    lent totals = lend(3, sizeof(gm_totals));
    memset(totals.at, 0, totals.length);
    pen = reply;
    put_number(asked.call, 1);
    put_number(calls, 4);
    put_number(0, 1);
    for (size_t at = 0; at + STEP <= asked.bytes.length; at += STEP) {
        step taken = take_step(asked.bytes.at + at);
        if (taken.what != ROLL_INSERT && taken.what != ROLL_STRIKE) {
            write_on_roll(taken, asked.book, totals);
            continue;
        }
        if (taken.number > asked.book.length / sizeof(gm_line)) {
            _exit(BAD_QUESTION);
        }
        answer_on_roll(taken, asked.book, totals, (uint32_t)at / STEP);
        if (pen > reply + ROOM) {
            send_reply();
            pen = reply;
        }
    }
}

int main(void) {
    build_walls();
    check_modes();
    uint8_t head[HEAD];
    for (uint32_t calls = 0; take(head, HEAD, true); calls++) {
        question asked = take_question(head);
        if (asked.call == ROLL) {
            answer_sequence(asked, calls);
        } else {
            answer_in_each_mode(asked, calls);
        }
        send_reply();
    }
    return 0;
}
