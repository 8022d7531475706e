/*
 * The run of 01 from C: opens book X, answers eight frames that two drivers' units give, and prints
 * the journal. An authority and an arrival are lost on the way, and come when the driver presses
 * Again. Then one unit goes once through its flow, frames are repeated, books with sidings and with
 * several tracks are opened, gangs get a section, records are counted, running times are added up,
 * and a cab reports where it is. Exit status 0 where all went as the paper says, else 1.
 *
 *   .ci/archive
 *   cc -Wall -Wextra -I crates/quangevit tests/c/example.c target/staticlib/libquangevit.a -o example
 */
#include <math.h>
#include <stdio.h>
#include <string.h>

#include "quangevit.h"

static const uint8_t BOOK_X[] = {0x00, 0x0A, 1, 3, 1, 2, 1, 2, 0, 2, 2, 0};

/* The first frames of train 0. */
static const uint8_t FIRST_FA[] = {0, 5, 1, QUANGEVIT_FA, 0, 0, 1};
static const uint8_t FIRST_AM[] = {0, 5, 1, QUANGEVIT_AM, 0, 0, 1};

/* The journal of the run: kind, train, from, to, and of an FE the track at the post run to. */
#define RECORDS 13
static const uint8_t RUN[RECORDS][QUANGEVIT_RECORD_BYTES] = {
    {QUANGEVIT_FA, 0, 0, 1, 0},  {QUANGEVIT_FE, 0, 0, 1, 1}, {QUANGEVIT_FA, 1, 2, 1, 0},
    {QUANGEVIT_FE, 1, 2, 1, 2},  {QUANGEVIT_AM, 0, 0, 1, 0}, {QUANGEVIT_FA, 0, 1, 2, 0},
    {QUANGEVIT_AFE, 0, 1, 2, 0}, {QUANGEVIT_AM, 1, 2, 1, 0}, {QUANGEVIT_FE, 0, 1, 2, 1},
    {QUANGEVIT_FA, 1, 1, 0, 0},  {QUANGEVIT_FE, 1, 1, 0, 1}, {QUANGEVIT_AM, 0, 1, 2, 0},
    {QUANGEVIT_AM, 1, 1, 0, 0},
};

static uint8_t line[QUANGEVIT_LINE_BYTES];
static uint8_t state[QUANGEVIT_STATE_BYTES];
static uint8_t table[QUANGEVIT_TABLE_BYTES];
static uint8_t journal[QUANGEVIT_JOURNAL_BYTES];
static uint8_t out[QUANGEVIT_OUT_BYTES];
static uint8_t units[2][QUANGEVIT_UNIT_BYTES];

static unsigned refused_frames;
static int off;

/* Something is not as the paper says. */
static void expect(int held, const char *what) {
    if (!held) {
        fprintf(stderr, "off: %s\n", what);
        off = 1;
    }
}

/* Presses a button of a unit, which must be accepted; answers how many frames it gave. */
static uint32_t press(unsigned t, enum quangevit_button button, uint8_t *frame) {
    uint32_t r = quangevit_press(units[t], QUANGEVIT_UNIT_BYTES, (uint8_t)button, frame,
                                 QUANGEVIT_FRAME_BYTES);
    expect(QUANGEVIT_REFUSAL(r) == QUANGEVIT_ACCEPTED, "a press is refused");
    return QUANGEVIT_SENT(r);
}

/* Hands a unit a frame; answers the number of the refusal. */
static uint32_t hear(unsigned t, const uint8_t *frame) {
    return QUANGEVIT_REFUSAL(
        quangevit_hear(units[t], QUANGEVIT_UNIT_BYTES, frame, QUANGEVIT_FRAME_BYTES));
}

/* Puts a frame to the dispatcher. */
static uint32_t answer(const uint8_t *frame) {
    return quangevit_answer(state, sizeof state, table, sizeof table, journal, sizeof journal,
                            frame, QUANGEVIT_FRAME_BYTES, out, sizeof out);
}

/* Sends a frame to the dispatcher; every unit hears the answers. */
static void send(const uint8_t *frame) {
    uint32_t r = answer(frame);
    uint32_t k, t;
    if (QUANGEVIT_REFUSAL(r) != QUANGEVIT_ACCEPTED)
        refused_frames++;
    for (k = 0; k < QUANGEVIT_SENT(r); k++)
        for (t = 0; t < 2; t++)
            expect(hear(t, out + QUANGEVIT_FRAME_BYTES * k) == QUANGEVIT_ACCEPTED,
                   "an answer is not heard");
}

/* Opens a book; answers the number of the refusal. */
static uint32_t open_book(const uint8_t *book, size_t book_len) {
    return quangevit_open(book, book_len, state, sizeof state, table, sizeof table, journal,
                          sizeof journal);
}

/* The driver of train t asks for the next move. */
static void ask(unsigned t) {
    uint8_t frame[QUANGEVIT_FRAME_BYTES];
    expect(press(t, QUANGEVIT_ASK, frame) == 1, "no FA");
    send(frame);
}

/* The driver of train t presses Again: the same frame is sent once more. */
static void again(unsigned t, const uint8_t *frame) {
    uint8_t once_more[QUANGEVIT_FRAME_BYTES];
    expect(press(t, QUANGEVIT_AGAIN, once_more) == 1, "Again gives no frame");
    expect(memcmp(once_more, frame, sizeof once_more) == 0, "Again gives another frame");
    send(once_more);
}

/* The driver of train t asks, and the answer is lost: the next FA brings it again. */
static void ask_unheard(unsigned t) {
    uint8_t frame[QUANGEVIT_FRAME_BYTES];
    expect(press(t, QUANGEVIT_ASK, frame) == 1, "no FA");
    expect(QUANGEVIT_SENT(answer(frame)) == 1, "not one answer to lose");
    again(t, frame);
}

/* The driver of train t goes under authority to the next post, where Report gives the AM. */
static void reach(unsigned t, uint8_t *frame) {
    expect(press(t, QUANGEVIT_DEPART, frame) == 0, "a frame at departure");
    expect(press(t, QUANGEVIT_REACHED, frame) == 0, "a frame at the post");
    expect(press(t, QUANGEVIT_REPORT, frame) == 1, "no AM");
}

/* The driver of train t goes to the next post and reports it. */
static void travel(unsigned t) {
    uint8_t frame[QUANGEVIT_FRAME_BYTES];
    reach(t, frame);
    send(frame);
}

/* The same, but the AM is lost. Again before the next Ask sends it, and once more does no harm. */
static void travel_unheard(unsigned t) {
    uint8_t frame[QUANGEVIT_FRAME_BYTES];
    reach(t, frame);
    again(t, frame);
    again(t, frame);
}

static void print_journal(void) {
    static const char *const kinds[] = {"?", "FA", "FE", "AFE", "AM", "LA", "LE", "LB"};
    unsigned count = state[QUANGEVIT_STATE_LOGGED_AT];
    unsigned i;
    for (i = 0; i < count; i++) {
        const uint8_t *r = journal + QUANGEVIT_RECORD_BYTES * i;
        uint8_t kind = r[QUANGEVIT_RECORD_KIND_AT];
        printf("%u %s %u %u %u %u\n", i, kinds[kind <= QUANGEVIT_LB ? kind : 0],
               r[QUANGEVIT_RECORD_TRAIN_AT], r[QUANGEVIT_RECORD_FROM_AT],
               r[QUANGEVIT_RECORD_TO_AT], r[QUANGEVIT_RECORD_TRACK_AT]);
    }
    printf("end %u %u\n", count, refused_frames);
}

/* The unit of train t is in a phase at a post. */
static void expect_unit(unsigned t, uint8_t post, enum quangevit_phase phase) {
    expect(units[t][QUANGEVIT_UNIT_POST_AT] == post, "a unit is at another post");
    expect(units[t][QUANGEVIT_UNIT_PHASE_AT] == phase, "a unit is in another phase");
}

/* Presses a button of a unit, which must be refused by a number. */
static void press_refused(unsigned t, enum quangevit_button button, uint32_t number) {
    uint8_t frame[QUANGEVIT_FRAME_BYTES];
    expect(quangevit_press(units[t], QUANGEVIT_UNIT_BYTES, (uint8_t)button, frame,
                           QUANGEVIT_FRAME_BYTES) == number,
           "a press is not refused as it should be");
}

/* The unit of train 5 from post 0 to post 1: declined first, then granted, and home. */
static void flow(void) {
    const uint8_t fe[] = {0, 5, 1, QUANGEVIT_FE, 5, 0, 1};
    const uint8_t afe[] = {0, 5, 1, QUANGEVIT_AFE, 5, 0, 1};
    uint8_t frame[QUANGEVIT_FRAME_BYTES];
    expect(quangevit_make_unit(5, 0, 1, units[0], QUANGEVIT_UNIT_BYTES) == QUANGEVIT_ACCEPTED,
           "a unit is not made");
    expect_unit(0, 0, QUANGEVIT_PHASE_STANDING);
    press_refused(0, QUANGEVIT_AGAIN, QUANGEVIT_NOT_NOW);
    expect(hear(0, fe) == QUANGEVIT_NOT_AWAITED, "an FE that nobody asked for is heard");
    expect(press(0, QUANGEVIT_ASK, frame) == 1, "no FA");
    expect(frame[QUANGEVIT_FRAME_KIND_AT] == QUANGEVIT_FA, "Ask gives no FA");
    expect_unit(0, 0, QUANGEVIT_PHASE_ASKED);
    expect(hear(0, afe) == QUANGEVIT_ACCEPTED, "the AFE is not heard");
    expect_unit(0, 0, QUANGEVIT_PHASE_DECLINED);
    press_refused(0, QUANGEVIT_DEPART, QUANGEVIT_NOT_NOW);
    expect(hear(0, fe) == QUANGEVIT_ACCEPTED, "the FE is not heard");
    expect_unit(0, 0, QUANGEVIT_PHASE_GRANTED);
    press_refused(0, QUANGEVIT_AGAIN, QUANGEVIT_NOT_NOW);
    expect(press(0, QUANGEVIT_DEPART, frame) == 0, "a frame at departure");
    expect_unit(0, 0, QUANGEVIT_PHASE_UNDER_WAY);
    expect(press(0, QUANGEVIT_REACHED, frame) == 0, "a frame at the post");
    expect_unit(0, 0, QUANGEVIT_PHASE_ARRIVED);
    expect(press(0, QUANGEVIT_REPORT, frame) == 1, "no AM");
    expect(frame[QUANGEVIT_FRAME_KIND_AT] == QUANGEVIT_AM, "Report gives no AM");
    expect_unit(0, 1, QUANGEVIT_PHASE_STANDING);
    press_refused(0, QUANGEVIT_ASK, QUANGEVIT_AT_ITS_END);
    expect(press(0, QUANGEVIT_AGAIN, frame) == 1, "Again gives no AM at the end");
    expect(frame[QUANGEVIT_FRAME_KIND_AT] == QUANGEVIT_AM, "Again gives no AM at the end");
    expect_unit(0, 1, QUANGEVIT_PHASE_STANDING);
}

/* Book X as one of edition 2: with a siding at each end, then at a post that is not in the line. */
static void sidings(void) {
    uint8_t book[] = {0x00, 0x0B, 2, 3, 1, 2, 1, 5, 2, 0, 2, 2, 0};
    expect(open_book(book, sizeof book) == QUANGEVIT_ACCEPTED, "a book with sidings does not open");
    expect(state[QUANGEVIT_STATE_SIDINGS_AT] == 5, "other sidings");
    book[7] = 8;
    expect(quangevit_read_book(book, sizeof book, line, sizeof line) == QUANGEVIT_SIDINGS,
           "a siding off the line is read");
}

/* Four trains at post 1, which has four tracks: up, down, parked, down. */
static void tracks(void) {
    static const uint8_t book[] = {0x00, 0x0E, 1, 3, 2, 4, 2, 4, 1, 2, 1, 0, 1, 1, 1, 0};
    static const uint8_t opened[] = {1, 4, 2, 3};
    const uint8_t *train = state + QUANGEVIT_STATE_FLEET_AT;
    unsigned t;
    expect(open_book(book, sizeof book) == QUANGEVIT_ACCEPTED, "a book of four trains is refused");
    for (t = 0; t < sizeof opened; t++, train += QUANGEVIT_TRAIN_BYTES)
        expect(train[QUANGEVIT_TRAIN_TRACK_AT] == opened[t], "a train is on another track");
}

/* The dispatcher accepts a frame and answers it by one frame of a kind. */
static void expect_one(const uint8_t *frame, enum quangevit_kind kind) {
    uint32_t r = answer(frame);
    expect(QUANGEVIT_REFUSAL(r) == QUANGEVIT_ACCEPTED && QUANGEVIT_SENT(r) == 1, "not one answer");
    expect(out[QUANGEVIT_FRAME_KIND_AT] == kind, "an answer of another kind");
}

/* On X a request and an arrival come twice: each is answered again, and logged once. */
static void repeats(void) {
    const uint8_t *last = state + QUANGEVIT_STATE_FLEET_AT + QUANGEVIT_TRAIN_LAST_AT;
    static const uint8_t none[] = {0, 0, 0}, first[] = {1, 0, 1};
    expect(open_book(BOOK_X, sizeof BOOK_X) == QUANGEVIT_ACCEPTED, "book X does not open");
    expect(answer(FIRST_AM) == QUANGEVIT_NO_AUTHORITY, "an arrival without authority is taken");
    expect_one(FIRST_FA, QUANGEVIT_FE);
    expect_one(FIRST_FA, QUANGEVIT_FE);
    expect(memcmp(last, none, sizeof none) == 0, "a last move before the first arrival");
    expect(answer(FIRST_AM) == QUANGEVIT_ACCEPTED, "an arrival is refused");
    expect(answer(FIRST_AM) == QUANGEVIT_ACCEPTED, "a repeated arrival is refused, or answered");
    expect(memcmp(last, first, sizeof first) == 0, "another last move");
    expect(answer(FIRST_FA) == QUANGEVIT_WRONG_POST, "the finished move is asked for again");
    expect(state[QUANGEVIT_STATE_LOGGED_AT] == 3, "a repeat is logged");
}

/* A gang gets section 0 of X, and train 0 waits for it. Only twenty times is a section given. */
static void local_runs(void) {
    static const uint8_t la[] = {0, 5, 1, QUANGEVIT_LA, 255, 0, 1};
    static const uint8_t lb[] = {0, 5, 1, QUANGEVIT_LB, 255, 0, 1};
    unsigned given;
    expect(open_book(BOOK_X, sizeof BOOK_X) == QUANGEVIT_ACCEPTED, "book X does not open");
    expect_one(la, QUANGEVIT_LE);
    expect(hear(0, out) == QUANGEVIT_ACCEPTED, "the LE is not heard");
    expect(answer(la) == QUANGEVIT_SECTION_TAKEN, "a section is given twice");
    expect_one(FIRST_FA, QUANGEVIT_AFE);
    expect_one(lb, QUANGEVIT_FE);
    expect(answer(la) == QUANGEVIT_SECTION_TAKEN, "the section of a train is given");
    expect(answer(FIRST_AM) == QUANGEVIT_ACCEPTED, "an arrival is refused");
    expect(answer(lb) == QUANGEVIT_NO_LOCAL_RUN, "a section comes back that nobody has");
    for (given = 1; given < QUANGEVIT_LOCAL_RUNS_MOST; given++) {
        expect_one(la, QUANGEVIT_LE);
        expect(answer(lb) == QUANGEVIT_ACCEPTED, "a section does not come back");
    }
    expect(answer(la) == QUANGEVIT_TWENTY_GIVEN, "a section is given the twenty-first time");
    expect(state[QUANGEVIT_STATE_LOGGED_AT] == 4 + 3 * QUANGEVIT_LOCAL_RUNS_MOST,
           "a move and twenty local runs log other than four records and sixty");
}

/*
 * No box that was opened counts so much as 229 records. X with that count, which is the most of a
 * sound state, is answered as ever; that leaves 231, and nothing more is answered.
 */
static void counts(void) {
    const uint8_t *last = journal + QUANGEVIT_RECORD_BYTES * QUANGEVIT_LOGGED_MOST;
    expect(open_book(BOOK_X, sizeof BOOK_X) == QUANGEVIT_ACCEPTED, "book X does not open");
    state[QUANGEVIT_STATE_LOGGED_AT] = QUANGEVIT_LOGGED_MOST;
    expect_one(FIRST_FA, QUANGEVIT_FE);
    expect(memcmp(last, RUN, 2 * QUANGEVIT_RECORD_BYTES) == 0, "other records from 229 on");
    expect(state[QUANGEVIT_STATE_LOGGED_AT] == QUANGEVIT_LOGGED_MOST + 2, "not 231 records");
    expect(answer(FIRST_FA) == QUANGEVIT_STRANGE_STATE, "a state that counts 231 is answered");
    expect(answer(FIRST_AM) == QUANGEVIT_STRANGE_STATE, "a state that counts 231 is answered");
}

/* The number of four bytes. */
static uint32_t number_at(const uint8_t *bytes) {
    return (uint32_t)bytes[0] << 24 | (uint32_t)bytes[1] << 16 | (uint32_t)bytes[2] << 8 | bytes[3];
}

/* X as a book of edition 3, its posts at 0, 1,000 and 2,234 metres. */
static uint8_t book_3[] = {
    0x00, 0x17, 3, 3, 1, 2, 1, 0,                   /* up to the siding byte */
    0, 0, 0, 0, 0, 0, 0x03, 0xE8, 0, 0, 0x08, 0xBA, /* positions */
    2, 0, 2, 2, 0,                                  /* trains */
};

static uint8_t told[QUANGEVIT_TIME_BYTES];

static uint32_t ask_time(uint8_t from, uint8_t to, uint32_t speed) {
    return quangevit_running_time(book_3, sizeof book_3, from, to, speed, told, sizeof told);
}

/* A way takes so many whole seconds at a speed, and the rest. */
static void expect_time(uint8_t from, uint8_t to, uint32_t speed, uint32_t seconds, uint32_t rest) {
    expect(ask_time(from, to, speed) == QUANGEVIT_ACCEPTED, "a running time is refused");
    expect(number_at(told + QUANGEVIT_TIME_SECONDS_AT) == seconds, "other seconds");
    expect(number_at(told + QUANGEVIT_TIME_REST_AT) == rest, "another rest");
}

/* At 55 km/h the rests of the two sections, 337, are a second, 275, and the rest of both. */
static void running_times(void) {
    expect(open_book(book_3, sizeof book_3) == QUANGEVIT_ACCEPTED, "edition 3 does not open");
    expect_time(0, 1, 55, 65, 125);
    expect_time(1, 2, 55, 80, 212);
    expect_time(2, 0, 55, 65 + 80 + 1, 62);
    expect(ask_time(0, 3, 55) == QUANGEVIT_WRONG_POST, "a way to a post off the line has a time");
    expect(ask_time(0, 1, QUANGEVIT_SPEED_MOST + 1) == QUANGEVIT_SPEED, "a time at 161 km/h");
    expect(number_at(told + QUANGEVIT_TIME_SECONDS_AT) == 146, "a refusal has written seconds");
    expect(number_at(told + QUANGEVIT_TIME_REST_AT) == 62, "a refusal has written a rest");
    book_3[11] = 1;
    expect(open_book(book_3, sizeof book_3) == QUANGEVIT_POSITIONS, "a book not from 0 is opened");
}

static uint8_t place[QUANGEVIT_PLACE_BYTES];

/* Reports a place on the line of book_3; only what the kind names is looked at. */
static uint32_t report(uint8_t kind, uint8_t post, float metres) {
    return quangevit_locate(book_3, sizeof book_3, kind, post, metres, place, sizeof place);
}

static uint32_t report_metres(float metres) {
    return report(QUANGEVIT_REPORT_METRES, 255, metres);
}

/* The place that was told last. */
static void expect_place(uint8_t sort, uint8_t number, uint8_t nearest) {
    expect(place[QUANGEVIT_PLACE_SORT_AT] == sort, "a place of another sort");
    expect(place[QUANGEVIT_PLACE_NUMBER_AT] == number, "another post or section");
    expect(place[QUANGEVIT_PLACE_NEAREST_AT] == nearest, "another nearest post");
}

/* So many metres are at a post. */
static void expect_at(float metres, uint8_t post) {
    expect(report_metres(metres) == QUANGEVIT_ACCEPTED, "metres at a post are refused");
    expect_place(QUANGEVIT_PLACE_POST, post, post);
}

/* So many metres are in a section. */
static void expect_in(float metres, uint8_t section, uint8_t nearest) {
    expect(report_metres(metres) == QUANGEVIT_ACCEPTED, "metres in a section are refused");
    expect_place(QUANGEVIT_PLACE_SECTION, section, nearest);
}

/* Posts 1 and 2 are at 1,000 and 2,234 metres: their middle is at 1,617. */
static void places(void) {
    expect(report_metres(0) == QUANGEVIT_POSITIONS, "a place by a book not from 0");
    book_3[11] = 0;
    expect_at(-0.0f, 0);
    expect_in(999.99994f, 0, 1); /* the next number below 1,000 */
    expect_at(1000, 1);
    expect_in(1617, 1, 1);
    expect_in(1617.0001f, 1, 2); /* the next number above 1,617 */
    expect_at(2234, 2);
    expect(report_metres(2234.0002f) == QUANGEVIT_NO_PLACE, "a place past the last post");
    expect(report_metres(-1) == QUANGEVIT_NO_PLACE, "a place below zero");
    expect(report_metres(INFINITY) == QUANGEVIT_NO_PLACE, "a place at infinity");
    expect(report_metres(NAN) == QUANGEVIT_NO_PLACE, "a place that is no number");
    expect(report(QUANGEVIT_REPORT_POST, 3, 0) == QUANGEVIT_WRONG_POST, "a post off the line");
    expect(report(QUANGEVIT_REPORT_METRES + 1, 0, 0) == QUANGEVIT_UNKNOWN_KIND, "another kind");
    expect_place(QUANGEVIT_PLACE_POST, 2, 2); /* no refusal has written a place */
    expect(report(QUANGEVIT_REPORT_POST, 1, NAN) == QUANGEVIT_ACCEPTED, "a post is refused");
    expect_place(QUANGEVIT_PLACE_POST, 1, 1);
    expect(report(QUANGEVIT_REPORT_MISSING, 3, NAN) == QUANGEVIT_ACCEPTED, "missing is refused");
    expect_place(QUANGEVIT_PLACE_NOTHING, 0, 0);
}

int main(void) {
    static const uint8_t line_x[QUANGEVIT_LINE_BYTES] = {3, 1, 2, 1, 0, 0, 0, 0,
                                                         0, 0, 2, 0, 2, 2, 0};
    const uint8_t *route = line + QUANGEVIT_LINE_ROUTES_AT;
    unsigned t;
    expect(quangevit_version() == QUANGEVIT_VERSION, "the library has another version");
    expect(quangevit_read_book(BOOK_X, sizeof BOOK_X, line, sizeof line) == QUANGEVIT_ACCEPTED,
           "book X is not read");
    expect(memcmp(line, line_x, sizeof line) == 0, "book X is another line");
    expect(open_book(BOOK_X, sizeof BOOK_X) == QUANGEVIT_ACCEPTED, "book X does not open");
    for (t = 0; t < 2; t++, route += QUANGEVIT_ROUTE_BYTES)
        expect(quangevit_make_unit((uint8_t)t, route[QUANGEVIT_ROUTE_START_AT],
                                   route[QUANGEVIT_ROUTE_END_AT], units[t],
                                   QUANGEVIT_UNIT_BYTES) == QUANGEVIT_ACCEPTED,
               "a unit is not made");
    ask_unheard(0);
    ask(1);
    travel_unheard(0);
    ask(0);
    travel(1);
    ask(1);
    travel(0);
    travel(1);
    print_journal();
    expect(state[QUANGEVIT_STATE_LOGGED_AT] == RECORDS, "not 13 records");
    expect(memcmp(journal, RUN, sizeof RUN) == 0, "other records");
    expect(refused_frames == 0, "a frame is refused");
    flow();
    repeats();
    sidings();
    tracks();
    local_runs();
    counts();
    running_times();
    places();
    return off;
}
