/*
 * quangevit.h: the two ends of single-line train dispatching (Zugleitbetrieb), the dispatcher's box
 * and the driver's unit, over byte buffers, the running time between two posts, for planners, and
 * the place of a cab on its line.
 * Link libquangevit.a (`.ci/archive` builds it).
 *
 * Every store is a buffer that the caller lends: a pointer, then its length in bytes. A pointer is
 * never null, also where the length is 0; no two buffers of one call overlap; nothing is kept
 * between calls. Each call returns. They may be called from several threads, each with buffers of
 * its own.
 *
 * What a call answers, and every byte it leaves in a buffer, is proved to be what the rules say
 * (crates/calls/specs), for every content and every length of the buffers. It is proved too
 * that after a quangevit_open that answers 0, where each quangevit_answer gets the bytes that the
 * call before it left, whatever the frames, no section has two holders, trains and gangs, no post
 * more trains on its tracks than it has, no track two trains, every authority has its logged
 * request, and the trains never all wait for each other while no gang has a section.
 *
 * The library is for x86-64 with SSE2 and the System V ABI, whose 128 bytes below the stack pointer
 * it uses: the handler of an interrupt leaves them alone, or has a stack of its own. It has no data
 * that changes, allocates nothing, and from outside needs memcpy and memset as C defines them,
 * nothing else. The stack that a call needs is in QUANGEVIT_STACK_..: its parameters, its return
 * address and the longest chain of calls in its machine code (tests/c/stack counts them), rounded
 * up, without what memcpy or memset needs for itself. quangevit_locate compares floats: MXCSR is as
 * a program finds it at its start, with the exceptions masked and denormal numbers not taken for
 * zero. Linking with -ffast-math would change that (DAZ).
 *
 * The answer of a call: the low byte is the number of the refusal, 0 where nothing was refused;
 * the next byte is the number of frames written (quangevit_answer, quangevit_press). Take it apart
 * with QUANGEVIT_REFUSAL and QUANGEVIT_SENT.
 */
#ifndef QUANGEVIT_H
#define QUANGEVIT_H

#include <stddef.h>
#include <stdint.h>

#ifdef __cplusplus
extern "C" {
#endif

/* 100 times the edition (what the ends answer) plus the revision: 800 is version 8.00. */
#define QUANGEVIT_VERSION 800

#define QUANGEVIT_REFUSAL(answer) ((answer) & 255u)
#define QUANGEVIT_SENT(answer) ((answer) >> 8)

/*
 * Sizes of buffers, in bytes. Line, state, unit, time and place have exactly this length; table,
 * journal and out at least this length; a frame that is heard or answered has exactly this length,
 * and the buffer that a press is lent for its frame at least this length.
 */
#define QUANGEVIT_LINE_BYTES 23
#define QUANGEVIT_STATE_BYTES 74
#define QUANGEVIT_TABLE_BYTES 32768
#define QUANGEVIT_JOURNAL_BYTES 1180 /* 236 records */
#define QUANGEVIT_OUT_BYTES 42       /* six frames */
#define QUANGEVIT_FRAME_BYTES 7
#define QUANGEVIT_UNIT_BYTES 5
#define QUANGEVIT_TIME_BYTES 8
#define QUANGEVIT_PLACE_BYTES 3
#define QUANGEVIT_BOOK_MOST_BYTES 58 /* the longest book */

#define QUANGEVIT_POSTS_MOST 8
#define QUANGEVIT_TRAINS_MOST 6
#define QUANGEVIT_LOCAL_RUNS_MOST 20 /* given since the opening */
#define QUANGEVIT_LOGGED_MOST 229     /* records counted in a sound state; in a run at most 228 */
#define QUANGEVIT_METRES_MOST 8388607 /* a post's position */
#define QUANGEVIT_SPEED_MOST 160      /* km/h */

/* Stack that a call needs, in bytes. */
#define QUANGEVIT_STACK_READ_BOOK 512
#define QUANGEVIT_STACK_OPEN 896
#define QUANGEVIT_STACK_RUNNING_TIME 640
#define QUANGEVIT_STACK_LOCATE 640
#define QUANGEVIT_STACK_ANSWER 1536
#define QUANGEVIT_STACK_UNIT 128 /* each call of a unit, and quangevit_version */

/* ---- what the bytes mean */

/*
 * Book: two bytes of length, high byte first (the bytes after them), the version byte 1 to 3, which
 * is the book's edition, the number of posts P (2 to 8), P track counts (1 to 4 each), in editions 2
 * and 3 the siding byte, in edition 3 the position of each post, the number of trains T (1 to 6),
 * then start and end post of each train. In all 5 + P + 2 T bytes, in edition 2 one more, and in
 * edition 3 1 + 4 P more.
 *
 * The siding byte is a set of posts: the bit of value 2^i says that post i has a siding. Of a book
 * of edition 1 it is 0. A train standing at its end where there is a siding holds no track; a move
 * into that post needs a free track before it all the same.
 *
 * A position is in metres along the line, four bytes, high byte first. The first post's is 0, every
 * other one's above that of the post before it, and none above 8,388,607. They serve the running
 * time and place reports alone: neither the line nor the state has them, and no answer to a frame
 * depends on them.
 */

/*
 * Track: the tracks of a post have the numbers from 1 to its track count, and 0 is none. A train
 * gets its track at the opening, in the order of the trains' numbers, and with each authority that
 * at the post it runs to: the smallest that no train holds, or the largest where its end is below
 * its start. It keeps it while it holds the post. A train put away in a siding has none.
 */

/*
 * Local run: a gang has a section, between two neighbouring posts, for a while and runs in it under
 * its own responsibility. No train gets an authority for that section meanwhile. The gang holds no
 * track, and trains may stand at both posts. The section has the number of its lower post.
 */

/*
 * Line: the number of posts, the tracks of posts 0 to 7, the siding byte, the number of trains,
 * then two bytes for each of trains 0 to 5. What the book does not name is 0.
 */
enum quangevit_line_at {
    QUANGEVIT_LINE_POSTS_AT = 0,
    QUANGEVIT_LINE_TRACKS_AT = 1, /* of post p: + p */
    QUANGEVIT_LINE_SIDINGS_AT = 9,
    QUANGEVIT_LINE_TRAINS_AT = 10,
    QUANGEVIT_LINE_ROUTES_AT = 11 /* of train t: + QUANGEVIT_ROUTE_BYTES * t */
};

#define QUANGEVIT_ROUTE_BYTES 2
enum quangevit_route_at { QUANGEVIT_ROUTE_START_AT = 0, QUANGEVIT_ROUTE_END_AT = 1 };

/*
 * State: the number of posts, the tracks of posts 0 to 7, the siding byte, the number of trains,
 * then nine bytes for each of trains 0 to 5, one byte for each of sections 0 to 6, which is 1 where a
 * gang has it and else 0, the number of local runs given since the opening, last the number of
 * records in the journal. Keep it between calls and do not change it. 74 bytes with another status,
 * with a detail that is not 0 where the status is Free, with another byte than 0 or 1 for whether a
 * train has a last move, with a post of it that is not 0 where there is none, or with another byte
 * for a section, encode no state.
 *
 * A move logs at most four records, FA, AFE, FE and AM, and a local run three, LA, LE and LB, so
 * that a box that was opened never counts more than 228: its journal does not fill up, and nothing
 * need be done about it. A state that counts more than 229 is not sound.
 */
enum quangevit_state_at {
    QUANGEVIT_STATE_POSTS_AT = 0,
    QUANGEVIT_STATE_TRACKS_AT = 1, /* of post p: + p */
    QUANGEVIT_STATE_SIDINGS_AT = 9,
    QUANGEVIT_STATE_TRAINS_AT = 10,
    QUANGEVIT_STATE_FLEET_AT = 11, /* of train t: + QUANGEVIT_TRAIN_BYTES * t */
    QUANGEVIT_STATE_POSSESSIONS_AT = 65, /* of section i: + i */
    QUANGEVIT_STATE_GIVEN_AT = 72,
    QUANGEVIT_STATE_LOGGED_AT = 73
};

#define QUANGEVIT_TRAIN_BYTES 9
enum quangevit_train_at {
    QUANGEVIT_TRAIN_START_AT = 0,
    QUANGEVIT_TRAIN_END_AT = 1,
    QUANGEVIT_TRAIN_POST_AT = 2,
    QUANGEVIT_TRAIN_TRACK_AT = 3, /* at its post */
    QUANGEVIT_TRAIN_STATUS_AT = 4,
    QUANGEVIT_TRAIN_DETAIL_AT = 5, /* Asked: number of its FA in the journal; Running: track at the
                                      post it runs to; Free: 0 */
    QUANGEVIT_TRAIN_LAST_AT = 6,   /* 1 where it has finished a move, else 0 */
    QUANGEVIT_TRAIN_LAST_FROM_AT = 7, /* its last finished move, from post to post, or 0 and 0 */
    QUANGEVIT_TRAIN_LAST_TO_AT = 8
};

enum quangevit_status {
    QUANGEVIT_STATUS_FREE = 0,
    QUANGEVIT_STATUS_ASKED = 1,
    QUANGEVIT_STATUS_RUNNING = 2
};

/*
 * Table: the way-through table. quangevit_open fills its first 32768 bytes; hand the same bytes to
 * quangevit_answer.
 */

/*
 * Journal: records of five bytes. A buffer of n bytes has n / 5 records; the n % 5 bytes past them
 * are neither read nor written. Kinds are the same in records and frames. The record of an FE has
 * the track at the post run to; every other record has 0 there.
 */
#define QUANGEVIT_RECORD_BYTES 5
enum quangevit_record_at {
    QUANGEVIT_RECORD_KIND_AT = 0,
    QUANGEVIT_RECORD_TRAIN_AT = 1,
    QUANGEVIT_RECORD_FROM_AT = 2,
    QUANGEVIT_RECORD_TO_AT = 3,
    QUANGEVIT_RECORD_TRACK_AT = 4
};

/*
 * Frame: two bytes of length, 0 and 5, version byte 1, then kind, train, from post, to post. Those
 * of a gang have 255 for the train, and the two posts of its section, the lower one first.
 */
enum quangevit_frame_at {
    QUANGEVIT_FRAME_LENGTH_AT = 0,
    QUANGEVIT_FRAME_VERSION_AT = 2,
    QUANGEVIT_FRAME_KIND_AT = 3,
    QUANGEVIT_FRAME_TRAIN_AT = 4,
    QUANGEVIT_FRAME_FROM_AT = 5,
    QUANGEVIT_FRAME_TO_AT = 6
};

enum quangevit_kind {
    QUANGEVIT_FA = 1,  /* request for a move (Fahranfrage) */
    QUANGEVIT_FE = 2,  /* authority for it (Fahrerlaubnis) */
    QUANGEVIT_AFE = 3, /* authority declined for now (Ablehnung der Fahrerlaubnis) */
    QUANGEVIT_AM = 4,  /* arrival reported (Ankunftmeldung) */
    QUANGEVIT_LA = 5,  /* a gang asks for a section */
    QUANGEVIT_LE = 6,  /* the section is given to it */
    QUANGEVIT_LB = 7   /* the gang gives it back */
};

/*
 * Time: whole seconds and the rest, four bytes each, high byte first. Over L metres at v km/h, 18 L
 * is 5 v times the seconds, plus the rest, which is below 5 v. The rest counts eighteenths of a
 * metre not yet run, so that rests at one speed add up: 5 v of them are a second.
 */
enum quangevit_time_at { QUANGEVIT_TIME_SECONDS_AT = 0, QUANGEVIT_TIME_REST_AT = 4 };

/* The kinds of a place report: missing, a post number, or a number of metres from the first post. */
enum quangevit_report {
    QUANGEVIT_REPORT_MISSING = 0,
    QUANGEVIT_REPORT_POST = 1,
    QUANGEVIT_REPORT_METRES = 2
};

/*
 * Place: its sort, the number of the post or the section, and the nearest post. At a post that is the
 * post itself; a section has the number of its lower post. For nothing all three are 0. Look at the
 * sort first: 0 is also the number of a post and of a section.
 */
enum quangevit_place_at {
    QUANGEVIT_PLACE_SORT_AT = 0,
    QUANGEVIT_PLACE_NUMBER_AT = 1,
    QUANGEVIT_PLACE_NEAREST_AT = 2
};

enum quangevit_place {
    QUANGEVIT_PLACE_NOTHING = 0,
    QUANGEVIT_PLACE_POST = 1,
    QUANGEVIT_PLACE_SECTION = 2
};

/* Unit: the five bytes of a driver's unit. Five bytes with another phase encode no unit. */
enum quangevit_unit_at {
    QUANGEVIT_UNIT_TRAIN_AT = 0,
    QUANGEVIT_UNIT_START_AT = 1,
    QUANGEVIT_UNIT_END_AT = 2,
    QUANGEVIT_UNIT_POST_AT = 3,
    QUANGEVIT_UNIT_PHASE_AT = 4
};

enum quangevit_phase {
    QUANGEVIT_PHASE_STANDING = 0,
    QUANGEVIT_PHASE_ASKED = 1,
    QUANGEVIT_PHASE_DECLINED = 2,
    QUANGEVIT_PHASE_GRANTED = 3,
    QUANGEVIT_PHASE_UNDER_WAY = 4,
    QUANGEVIT_PHASE_ARRIVED = 5
};

enum quangevit_button {
    QUANGEVIT_ASK = 0,
    QUANGEVIT_DEPART = 1,
    QUANGEVIT_REACHED = 2,
    QUANGEVIT_REPORT = 3,
    QUANGEVIT_AGAIN = 4
};

enum quangevit_refusal {
    QUANGEVIT_ACCEPTED = 0,
    QUANGEVIT_STRANGE_STATE = 1,    /* the bytes encode no state or unit, or it is not sound; or a
                                       line, state, unit, time or place buffer has another length */
    QUANGEVIT_SHORT_STORE = 2,      /* table, journal, out buffer or a press's frame too short */
    QUANGEVIT_TORN_FRAME = 3,       /* frame not 7 bytes, or its length bytes not 0 and 5 */
    QUANGEVIT_OTHER_EDITION = 4,    /* version byte of a frame not 1, of a book not 1 to 3; for a
                                       running time or a place report, of a book not 3 */
    QUANGEVIT_UNKNOWN_KIND = 5,     /* kind of a frame not 1 to 7, of a place report not 0 to 2 */
    QUANGEVIT_WRONG_END = 6,        /* FE, AFE, LE at the dispatcher; FA, AM at a unit */
    QUANGEVIT_UNKNOWN_TRAIN = 7,    /* no train of this number; LA, LB: train byte not 255 */
    QUANGEVIT_AT_ITS_END = 8,       /* no next post */
    QUANGEVIT_WRONG_POST = 9,       /* from or to not present and next post; LA, LB: not two
                                       neighbouring posts of the line, lower first; running time and
                                       place report: a post not on the line */
    QUANGEVIT_NO_AUTHORITY = 12,    /* AM of a train not Running */
    QUANGEVIT_TORN_BOOK = 14,       /* length wrong, or the book ends too early */
    QUANGEVIT_POSTS = 15,           /* posts not 2 to 8 */
    QUANGEVIT_TRACKS = 16,          /* a track count not 1 to 4 */
    QUANGEVIT_TRAINS = 17,          /* trains not 1 to 6 */
    QUANGEVIT_OFF_THE_LINE = 18,    /* start or end off the line; a unit's numbers out of range */
    QUANGEVIT_OVERFULL = 19,        /* more trains start on the tracks of a post than it has */
    QUANGEVIT_NO_WAY_THROUGH = 20,  /* the trains cannot all reach their ends */
    QUANGEVIT_NOT_NOW = 21,         /* button in the wrong phase, Again at the start, or no button */
    QUANGEVIT_NOT_AWAITED = 22,     /* FE in the wrong phase or for another move */
    QUANGEVIT_SIDINGS = 23,         /* the siding byte names a post not on the line */
    QUANGEVIT_SECTION_TAKEN = 24,   /* LA: a train or a gang has the section */
    QUANGEVIT_NO_LOCAL_RUN = 25,    /* LB: no gang has the section */
    QUANGEVIT_TWENTY_GIVEN = 26,    /* LA: twenty local runs were given */
    QUANGEVIT_POSITIONS = 27,       /* positions not from 0, not rising, or above 8,388,607 */
    QUANGEVIT_SPEED = 28,           /* speed not 1 to 160 */
    QUANGEVIT_NO_PLACE = 29         /* metres not a finite number, below zero or past the last post */
};

/* The version of the library that is linked: QUANGEVIT_VERSION where it fits this header. */
uint32_t quangevit_version(void);

/* ---- the dispatcher's end */

/*
 * Reads a book and writes the line that it describes. Checks, in this order: 1, a line buffer that
 * is not 23 bytes, which is left alone; 14, a book under 4 bytes or of another length than it
 * names; 4; 15; 14, under 5 + P bytes, 6 + P in edition 2, or 6 + 5 P in edition 3; 16; 23; 27; 17;
 * 14, not 5 + P + 2 T bytes, 6 + P + 2 T in edition 2, or 6 + 5 P + 2 T in edition 3; 18. A book
 * that is refused by 4, 14 to 18, 23 or 27 writes 23 zeros. The positions are not written.
 */
uint32_t quangevit_read_book(const uint8_t *book, size_t book_len, uint8_t *line, size_t line_len);

/*
 * Opens a book: fills the table and writes the state in which every train is Free at its start, on
 * its track there, no gang has a section, and the journal has no record. What the state buffer held
 * is not looked at; the journal is only measured. Checks, in this order: 1, a state buffer that is
 * not 74 bytes, and nothing is changed; 2, table or journal; those of quangevit_read_book from 14
 * on; 19; 20. A refusal by 2, 4, 14 to 20, 23 or 27 writes 74 zeros, a state on which
 * quangevit_answer gives 1; the table is then left alone, but for 20, which leaves it filled.
 */
uint32_t quangevit_open(const uint8_t *book, size_t book_len, uint8_t *state, size_t state_len,
                        uint8_t *table, size_t table_len, const uint8_t *journal,
                        size_t journal_len);

/*
 * Answers a frame (an FA or an AM of a driver's unit, an LA or an LB of a gang): writes the state
 * afterwards, the records of the frame and of its answers from the journal's next record on, and
 * the answers' frames at the beginning of out, 0 to 6 of them, for the units; an LA gets its LE.
 *
 * A frame that repeats an earlier one is answered, and neither state nor journal is changed: an FA
 * for the next move of an Asked train by its AFE, of a Running train by its FE, and an AM of the
 * train's last finished move by no frame. Nobody gets an authority by a repeat.
 *
 * Checks, in this order: 1, then 2 to 9 by their numbers (8 not for LA and LB; an AM of the last
 * finished move passes after 7), 12 for an AM, 24 and 26 for an LA, 25 for an LB. A refusal changes
 * nothing. No call answers 10, 11 or 13.
 */
uint32_t quangevit_answer(uint8_t *state, size_t state_len, const uint8_t *table, size_t table_len,
                          uint8_t *journal, size_t journal_len, const uint8_t *frame,
                          size_t frame_len, uint8_t *out, size_t out_len);

/* ---- for planners */

/*
 * The running time from one post of a book to another, in either direction, at a speed in km/h.
 * Checks, in this order: 1, a time buffer that is not 8 bytes; those of quangevit_read_book from 14
 * on, where a version other than 3 is 4; 9, a post not below P; 28. A refusal changes nothing. No
 * train is placed: a book that quangevit_open refuses by 19 or 20 is answered.
 */
uint32_t quangevit_running_time(const uint8_t *book, size_t book_len, uint8_t from, uint8_t to,
                                uint32_t speed, uint8_t *time, size_t time_len);

/* ---- for cabs that know where they are */

/*
 * The place that a report puts a cab at, by the positions of a book. The kind, QUANGEVIT_REPORT_..,
 * says whether the post number or the metres is the report; the other one is not looked at, nor
 * either where the report is missing. A post number gives that post, and a missing report nothing.
 *
 * A number of metres gives the post whose position it equals, else the section that it lies in, and
 * also the nearest post, the lower at equal distance. All go by the exact value of the float,
 * whatever its bits: the next number after a post's position lies past it. Minus zero is zero.
 *
 * Checks, in this order: 1, a place buffer that is not 3 bytes; 5, a kind above 2; those of
 * quangevit_read_book from 14 on, where a version other than 3 is 4; 9, a post number not below P;
 * 29, metres that are not a finite number, below zero or past the last post. A refusal changes
 * nothing. No train is placed, no unit is asked, and nothing is granted or reported by it.
 */
uint32_t quangevit_locate(const uint8_t *book, size_t book_len, uint8_t kind, uint8_t post,
                          float metres, uint8_t *place, size_t place_len);

/* ---- the driver's end */

/*
 * The flow of a unit. Its move is from its present post to the next one towards its end.
 *
 *   phase      what happens             next phase                   sent
 *   Standing   Ask                      Asked                        FA for its move
 *   Asked      FE for its move heard    Granted
 *   Asked      AFE for its move heard   Declined
 *   Declined   FE for its move heard    Granted
 *   Granted    Depart                   Under way
 *   Under way  Reached                  Arrived
 *   Arrived    Report                   Standing, at the next post   AM for the move just made
 *
 * Any other press of these four buttons is 21, and Ask at the end 8. Another FE for its own train is
 * 22. Another AFE, an FE for another train, and an LA, LE or LB is heard and changes nothing.
 *
 * Again changes no phase and sends once more what may be lost: in Asked and Declined the FA for its
 * move, in Standing past the start, also at the end, the AM of the last move. Else it is 21. A lost
 * AM can be sent again until Ask is pressed, and not after it: press Again before Ask.
 */

/*
 * Makes a unit for a train (0 to 5) and its route (posts 0 to 7), Standing at its start. Checks, in
 * this order: 1, a unit buffer that is not 5 bytes, which is left alone; 18, numbers out of range,
 * which writes the empty unit 255, 0, 0, 0, 0.
 *
 * A unit that goes with a box is made with its train's number, start and end in the book that the
 * box opened. Then no two units have authorities for one section, as long as the channel brings
 * only frames that were sent since the opening, as they were sent, whatever it loses, repeats,
 * delays or reorders of them.
 */
uint32_t quangevit_make_unit(uint8_t train, uint8_t start, uint8_t end, uint8_t *unit,
                             size_t unit_len);

/*
 * Presses a button. Ask, Report and Again give a frame, an FA or an AM: its seven bytes are at the
 * beginning of `frame` and the answer says 1 sent; else `frame` is left alone. Checks, in this
 * order: 1; 2, a frame buffer under 7 bytes, whatever the button; 21, also for a number that is no
 * button's; 8. A refusal changes nothing.
 */
uint32_t quangevit_press(uint8_t *unit, size_t unit_len, uint8_t button, uint8_t *frame,
                         size_t frame_len);

/*
 * Hears a frame of the dispatcher, an FE or an AFE, or one of the frames by which gangs get a
 * section. Checks, in this order: 1, 3, 4, 5, 6, 22. A refusal changes nothing.
 */
uint32_t quangevit_hear(uint8_t *unit, size_t unit_len, const uint8_t *frame, size_t frame_len);

#ifdef __cplusplus
}
#endif

#endif
