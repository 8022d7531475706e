//! What is to come of inputs beside numbers: the cases of each subject, under their names.

/// A case of a subject.
pub trait Case {
    const SUBJECT: Subject;

    /// Its place among the subject's cases and their names.
    fn place(self) -> usize;
}

#[derive(Debug, Clone, Copy)]
pub enum Subject {
    Sidings,
    Tracks,
    Codes,
    LocalRuns,
    Times,
    TimeOrders,
    Places,
    PlaceOrders,
    Repeats,
    LastMoves,
    Again,
    JournalCounts,
    Channel,
}

/// The cases of which this is true.
pub fn shown<C: Case, const N: usize>(cases: [(bool, C); N]) -> Vec<C> {
    let shown = cases.into_iter().filter(|(is_shown, _)| *is_shown);
    shown.map(|(_, case)| case).collect()
}

/// The subjects in their order, each with the names of its cases.
pub const SUBJECTS: [(&str, &[&str]); 13] = [
    ("sidings", &SIDINGS),
    ("tracks", &TRACKS),
    ("codes", &CODES),
    ("local runs", &LOCAL_RUNS),
    ("running times", &TIMES),
    ("the order of checks for them", &TIME_ORDERS),
    ("place reports", &PLACES),
    ("the order of checks for those", &PLACE_ORDERS),
    ("repeats", &REPEATS),
    ("last moves", &LAST_MOVES),
    ("Again", &AGAIN),
    ("the journal's count", &JOURNAL_COUNTS),
    ("the channel", &CHANNEL),
];

/// What comes of sidings alone, in the order of the names.
#[derive(Debug, Clone, Copy, PartialEq, Eq)]
pub enum SidingCase {
    StartFits,
    WayFits,
    TrackBefore,
    PutAway,
    Crowded,
    Declined,
    OffTheLine,
    NoSiding,
}

impl Case for SidingCase {
    const SUBJECT: Subject = Subject::Sidings;

    fn place(self) -> usize {
        self as usize
    }
}

const SIDINGS: [&str; 8] = [
    "opened, overfull without them",
    "opened, no way through without them",
    "no way through, lawful placings all the way",
    "a train put away",
    "more trains put away than tracks",
    "declined, no track before the siding",
    "a strange state, siding off the line",
    "a strange state, no siding for its trains",
];

/// What comes of tracks, in the order of the names. A strange state is sound but for the one track.
#[derive(Debug, Clone, Copy, PartialEq, Eq)]
pub enum TrackCase {
    OnNone,
    OnOneAbove,
    OnAnothers,
    OnOnePutAway,
    ToNone,
    ToOneAbove,
    ToAnothers,
    Unread,
    OpenedApart,
    OpenedParked,
    OpenedPutAway,
    First,
    Second,
    Third,
    Fourth,
    UpPastOthers,
    DownPastOthers,
    TwoAtOnce,
    FreedAndTaken,
    PutAway,
}

impl Case for TrackCase {
    const SUBJECT: Subject = Subject::Tracks;

    fn place(self) -> usize {
        self as usize
    }
}

const TRACKS: [&str; 20] = [
    "a strange state, a train on no track",
    "a strange state, on a track above the count",
    "a strange state, on another's track",
    "a strange state, put away and on a track",
    "a strange state, running to no track",
    "a strange state, to a track above the count",
    "a strange state, running to another's track",
    "answered, tracks in places not read",
    "opened, two trains at a post, tracks apart",
    "opened, a parked train on a track",
    "opened, a parked train put away, no track",
    "authority to track 1",
    "authority to track 2",
    "authority to track 3",
    "authority to track 4",
    "authority, up, lower tracks held",
    "authority, down, higher tracks held",
    "two authorities to a post in one answer",
    "a track freed and taken in one answer",
    "arrived and put away, no track",
];

/// By which code the last authority of an answer was given, in the order of the names.
#[derive(Debug, Clone, Copy, PartialEq, Eq)]
pub enum CodeCase {
    In16Bits,
    Past16Bits,
    Largest,
}

impl Case for CodeCase {
    const SUBJECT: Subject = Subject::Codes;

    fn place(self) -> usize {
        self as usize
    }
}

const CODES: [&str; 3] = [
    "authority by a code up to 65,535",
    "authority by a code above, below the largest",
    "authority by the largest code, 262,143",
];

/// What comes of local runs, in the order of the names: of an LA, an LB or an LE at the box, of a train that waits or
/// goes, and of what is strange for a gang alone.
#[derive(Debug, Clone, Copy, PartialEq, Eq)]
pub enum LocalRunCase {
    LaOfTrain,
    LbOfTrain,
    LaMisnamed,
    LbMisnamed,
    HigherFirst,
    OffTheLine,
    LeAtTheBox,
    TakenByTrain,
    TakenByGang,
    TakenAfterTwenty,
    TwentyGiven,
    NobodyThere,
    TrainThere,
    Given,
    Twentieth,
    BetweenTrains,
    NotGranting,
    BackForNobody,
    BackForOne,
    BackForSeveral,
    WaitsForGang,
    GrantedBeside,
    Unread,
    TrainAndGang,
    PastTwenty,
    OtherByte,
    OtherByteUnread,
}

impl Case for LocalRunCase {
    const SUBJECT: Subject = Subject::LocalRuns;

    fn place(self) -> usize {
        self as usize
    }
}

const LOCAL_RUNS: [&str; 27] = [
    "LA refused by 7, a train's number",
    "LB refused by 7, a train's number",
    "LA refused by 9, posts not so named",
    "LB refused by 9, posts not so named",
    "9, neighbouring posts, the higher first",
    "9, the last post and the one after it",
    "LE at the box refused by 6",
    "LA refused by 24, a train has the section",
    "LA refused by 24, a gang has the section",
    "LA refused by 24, twenty given as well",
    "LA refused by 26, twenty given",
    "LB refused by 25, nobody has the section",
    "LB refused by 25, a train has the section",
    "LA answered",
    "LA answered, the twentieth",
    "LA answered, trains at both its posts",
    "LA answered, a train that could go waits on",
    "LB, no train granted",
    "LB, one train granted",
    "LB, several trains granted",
    "declined, a gang alone in the way",
    "authority, a gang on another section",
    "answered, gangs in places not read",
    "a strange state, a gang and a train",
    "a strange state, more than twenty given",
    "no state, a section's byte above 1",
    "no state, such a byte off the line",
];

/// What comes of questions about running times, in the order of the names: of one that is answered, and of one that is
/// refused by 4, 9, 27 or 28.
#[derive(Debug, Clone, Copy, PartialEq, Eq)]
pub enum TimeCase {
    NoRest,
    Rest,
    LargestRest,
    UnderASecond,
    OnePost,
    Up,
    Down,
    EighthPost,
    LongestWay,
    Slowest,
    Fastest,
    Overfull,
    NoWayThrough,
    First,
    Second,
    Later,
    OtherFault,
    FromOff,
    ToOff,
    BehindTheLast,
    OneOffTwice,
    NotFrom0,
    Equal,
    Falling,
    LastTooFar,
    MoreTooFar,
    OneBeforeTooFar,
    LowByteFirst,
    Standstill,
    OneTooFast,
    RightInOneByte,
}

impl Case for TimeCase {
    const SUBJECT: Subject = Subject::Times;

    fn place(self) -> usize {
        self as usize
    }
}

const TIMES: [&str; 31] = [
    "no rest",
    "a rest",
    "a rest of 5 v - 1",
    "0 seconds and a rest",
    "one post twice",
    "the lower post first",
    "the higher post first",
    "to or from the eighth post",
    "over 8,388,607 metres",
    "at 1 km/h",
    "at 160 km/h",
    "of a book that is 19 to open",
    "of a book that is 20 to open",
    "4, a right book of edition 1",
    "4, a right book of edition 2",
    "4, an edition above 3",
    "4, another fault as well",
    "9, the first post alone",
    "9, the second post alone",
    "9, the post behind the last",
    "9, one post twice",
    "27, not from 0",
    "27, two equal",
    "27, falling",
    "27, the last too far",
    "27, the last and others too far",
    "27, one before the last too far",
    "27, right with the low byte first",
    "28, 0 km/h",
    "28, 161 km/h",
    "28, right in its low byte",
];

/// Of two neighbouring checks for a running time, by the place of the two, the first refused, and the next would have.
#[derive(Debug, Clone, Copy, PartialEq, Eq)]
pub struct TimeOrder(pub usize);

impl Case for TimeOrder {
    const SUBJECT: Subject = Subject::TimeOrders;

    fn place(self) -> usize {
        self.0
    }
}

const TIME_ORDERS: [&str; 12] = around_book(
    &["1 before 14, the length named"],
    &["18 before 9", "9 before 28"],
);

/// What comes of place reports, in the order of the names: of metres at a post and in a section, of a post number, of
/// one that is missing, and of a report that is refused by 4, 5, 9 or 29.
#[derive(Debug, Clone, Copy, PartialEq, Eq)]
pub enum PlaceCase {
    AtFirst,
    AtMiddle,
    AtLast,
    AtFarEnd,
    MinusZero,
    InFirst,
    InMiddle,
    InLast,
    NearLower,
    NearUpper,
    TieWhole,
    TieHalf,
    TieInAMetre,
    BelowPost,
    AbovePost,
    BelowTie,
    AboveTie,
    Smallest,
    BesidePost,
    Itself,
    BesideNan,
    MissingPost,
    MissingNan,
    Overfull,
    NoWayThrough,
    First,
    Second,
    Later,
    OtherFault,
    NextKind,
    KindAbove,
    KindBefore14,
    KindBefore4,
    KindBefore15,
    KindBefore16,
    KindBefore23,
    KindBefore27,
    KindBefore17,
    KindBefore18,
    BehindTheLast,
    FarBehind,
    SmallestBelow,
    BySign,
    PastTheLast,
    Infinite,
    MinusInfinite,
    Quiet,
    Signalling,
    NanWithSign,
}

impl Case for PlaceCase {
    const SUBJECT: Subject = Subject::Places;

    fn place(self) -> usize {
        self as usize
    }
}

const PLACES: [&str; 49] = [
    "at the first post",
    "at a post between",
    "at the last post",
    "at 8,388,607 metres",
    "minus zero",
    "in the first section",
    "in a section between",
    "in the last section",
    "the lower post is nearer",
    "the upper post is nearer",
    "equal distance, at a whole metre",
    "equal distance, at half a metre",
    "equal distance, in a section of a metre",
    "one bit below a post",
    "one bit above a post",
    "one bit below equal distance",
    "one bit above equal distance",
    "the smallest number above zero",
    "metres, beside a post off the line",
    "a post number",
    "a post number, beside a NaN",
    "missing, beside a post off the line",
    "missing, beside a NaN",
    "of a book that is 19 to open",
    "of a book that is 20 to open",
    "4, a right book of edition 1",
    "4, a right book of edition 2",
    "4, an edition above 3",
    "4, another fault as well",
    "5, kind 3",
    "5, a kind above 3",
    "5, a book that would be 14",
    "5, a book that would be 4",
    "5, a book that would be 15",
    "5, a book that would be 16",
    "5, a book that would be 23",
    "5, a book that would be 27",
    "5, a book that would be 17",
    "5, a book that would be 18",
    "9, the post behind the last",
    "9, a post further behind",
    "29, the smallest number below zero",
    "29, on the line but for its sign",
    "29, one bit past the last post",
    "29, infinity",
    "29, minus infinity",
    "29, a quiet NaN",
    "29, a signalling NaN",
    "29, a NaN with the sign",
];

/// As `TimeOrder`, for a place.
#[derive(Debug, Clone, Copy, PartialEq, Eq)]
pub struct PlaceOrder(pub usize);

impl Case for PlaceOrder {
    const SUBJECT: Subject = Subject::PlaceOrders;

    fn place(self) -> usize {
        self.0
    }
}

const PLACE_ORDERS: [&str; 13] = around_book(
    &["1 before 5", "5 before 14, the length named"],
    &["18 before 9", "18 before 29"],
);

/// Neighbouring checks of a book.
const BOOK_ORDERS: [&str; 9] = [
    "14, the length named, before 4",
    "4 before 15",
    "15 before 14, an early end",
    "14, an early end, before 16",
    "16 before 23",
    "23 before 27",
    "27 before 17",
    "17 before 14, the total",
    "14, the total, before 18",
];

/// Those of a book between others.
const fn around_book<const N: usize>(
    before: &[&'static str],
    after: &[&'static str],
) -> [&'static str; N] {
    let end = before.len() + BOOK_ORDERS.len();
    let mut all = [""; N];
    let mut n = 0;
    while n < N {
        all[n] = if n < before.len() {
            before[n]
        } else if n < end {
            BOOK_ORDERS[n - before.len()]
        } else {
            after[n - end]
        };
        n += 1;
    }
    all
}

/// What comes of an FA or AM that repeats an earlier one, and of one that nearly does and is refused, in the order of
/// the names.
#[derive(Debug, Clone, Copy, PartialEq, Eq)]
pub enum RepeatCase {
    Declined,
    Granted,
    ArrivedFree,
    ArrivedAsked,
    ArrivedRunning,
    ArrivedHome,
    ArrivedPutAway,
    CouldGo,
    AnotherCouldGo,
    WouldBeDeclined,
    WaitsForGang,
    ShortStore,
    RequestOfLast,
    RequestOfLastHome,
    Earlier,
    EarlierHome,
    BeforeTheFirst,
    NotYet,
    FromAlone,
    ToAlone,
    Backwards,
    Anothers,
    UnreadPlace,
    NotReported,
}

impl Case for RepeatCase {
    const SUBJECT: Subject = Subject::Repeats;

    fn place(self) -> usize {
        self as usize
    }
}

const REPEATS: [&str; 24] = [
    "FA of an Asked train, AFE again",
    "FA of a Running train, FE again",
    "AM of the last move, Free",
    "AM of the last move, Asked",
    "AM of the last move, Running",
    "AM of the last move, at the end",
    "AM of the last move, put away",
    "AFE again, the train could go",
    "a repeat, another train could go",
    "FE again, it would be declined now",
    "AFE again, a gang alone in the way",
    "2, a repeat and a short store",
    "9, FA of the last move",
    "8, FA of the last move, at the end",
    "9, AM of an earlier move",
    "8, AM of an earlier move, at the end",
    "12, AM before the first move",
    "12, AM of the next move past the start",
    "refused, AM with the last from post alone",
    "refused, AM with the last to post alone",
    "refused, AM of the last move backwards",
    "refused, AM of another's last move",
    "7, AM of a last move in a place not read",
    "9, FA past an arrival not reported",
];

/// What the last moves of a state show, in the order of the names. A strange state is sound but for the one last move.
#[derive(Debug, Clone, Copy, PartialEq, Eq)]
pub enum LastMoveCase {
    NonePast,
    AtStart,
    Parked,
    Backwards,
    Ahead,
    AheadRunning,
    Earlier,
    OtherFrom,
    OtherTo,
    OffTheLine,
    Other,
    Unread,
    OtherByte,
    OtherByteUnread,
    PostOfNone,
    PostOfNoneUnread,
}

impl Case for LastMoveCase {
    const SUBJECT: Subject = Subject::LastMoves;

    fn place(self) -> usize {
        self as usize
    }
}

const LAST_MOVES: [&str; 16] = [
    "a strange state, none past the start",
    "a strange state, one at the start",
    "a strange state, one of a parked train",
    "a strange state, backwards",
    "a strange state, the move ahead",
    "a strange state, the move under way",
    "a strange state, an earlier one",
    "a strange state, from another post",
    "a strange state, to another post",
    "a strange state, from or to off the line",
    "a strange state, another one",
    "answered, strange ones in places not read",
    "no state, a byte above 1 for it",
    "no state, such a byte in a place not read",
    "no state, a post where there is none",
    "no state, such a post in a place not read",
];

/// What comes of Again, and of a number that is no button's, in the order of the names.
#[derive(Debug, Clone, Copy, PartialEq, Eq)]
pub enum AgainCase {
    AtStart,
    Parked,
    PastUp,
    PastDown,
    Home,
    Asked,
    Declined,
    Granted,
    UnderWay,
    Arrived,
    Strange,
    ShortDue,
    ShortNotNow,
    Button5,
    ButtonAbove,
}

impl Case for AgainCase {
    const SUBJECT: Subject = Subject::Again;

    fn place(self) -> usize {
        self as usize
    }
}

const AGAIN: [&str; 15] = [
    "21, Standing at the start",
    "21, Standing, parked",
    "AM, Standing past the start, up",
    "AM, Standing past the start, down",
    "AM, Standing at the end",
    "FA, Asked",
    "FA, Declined",
    "21, Granted",
    "21, Under way",
    "21, Arrived",
    "1, a strange unit",
    "2, a short buffer where a frame is due",
    "2, a short buffer where it is 21",
    "21, button 5",
    "21, a button above 5",
];

/// What the journal's count brings about, in the order of the names: frames answered near the most that a sound state
/// counts, what they leave, states that are strange for their count alone, and runs from opened books.
#[derive(Debug, Clone, Copy, PartialEq, Eq)]
pub enum CountCase {
    GrantedAtMost,
    DeclinedAtMost,
    ArrivedAtMost,
    GivenAtMost,
    BackAtMost,
    DeclinedAgainAtMost,
    GrantedAgainAtMost,
    ArrivedAgainAtMost,
    GrantedNear,
    DeclinedNear,
    ArrivedNear,
    GivenNear,
    BackNear,
    DeclinedAgainNear,
    GrantedAgainNear,
    ArrivedAgainNear,
    ShortAtMost,
    LeavesMost,
    LeavesOneMore,
    LeavesMore,
    LeavesAllToRequest,
    LeavesAllAndDeclines,
    LeavesAllToGang,
    OneAbove,
    AFrameAbove,
    FarAbove,
    AboveNew,
    AboveRepeat,
    AboveWrong,
    AboveTorn,
    AboveShortTable,
    AboveShortJournal,
    AboveShortOut,
    LeftThenTrain,
    LeftThenGang,
    LeftThenRepeat,
    LeftThenTorn,
    RunToTheEnd,
    RunAtItsMost,
    RunRepeat,
    RunRefused,
}

impl Case for CountCase {
    const SUBJECT: Subject = Subject::JournalCounts;

    fn place(self) -> usize {
        self as usize
    }
}

const JOURNAL_COUNTS: [&str; 41] = [
    "FA granted at 229",
    "FA declined at 229",
    "AM at 229",
    "LA answered at 229",
    "LB answered at 229",
    "AFE again at 229",
    "FE again at 229",
    "AM of the last move at 229",
    "FA granted at 223 to 228",
    "FA declined at 223 to 228",
    "AM at 223 to 228",
    "LA answered at 223 to 228",
    "LB answered at 223 to 228",
    "AFE again at 223 to 228",
    "FE again at 223 to 228",
    "AM of the last move at 223 to 228",
    "2 at 229, a journal of 235 records",
    "229 left",
    "230 left",
    "231 to 235 left",
    "236 left, FA and six FE",
    "236 left, FA, five FE and its AFE",
    "236 left, LB and six FE",
    "a strange state, 230",
    "a strange state, 231 to 236",
    "a strange state, 237 to 255",
    "1 above 229, a new frame",
    "1 above 229, a repeat",
    "1 above 229, before 4 to 26",
    "1 above 229, before 3",
    "1 above 229, before 2 for the table",
    "1 above 229, before 2 for the journal",
    "1 above 229, before 2 for the out buffer",
    "1 after more than 229 left, FA or AM",
    "1 after more than 229 left, LA or LB",
    "1 after more than 229 left, a repeat",
    "1 after more than 229 left, a torn frame",
    "228 in a run",
    "a run at its most, a gang out",
    "a repeat at 228 in a run",
    "refused at 228 in a run",
];

/// What comes of frames over a channel that loses, repeats, delays and reorders them, in the order of the names: at the
/// box, at a unit, of box and units after an event, and of the frames sent.
#[derive(Debug, Clone, Copy, PartialEq, Eq)]
pub enum ChannelCase {
    FeAtBox,
    AfeAtBox,
    LeAtBox,
    AskedAgain,
    AskedEarly,
    OldRequest,
    OldRequestHome,
    ArrivedLate,
    ArrivedAgain,
    ArrivedAgainUnderWay,
    Earlier,
    EarlierUnderWay,
    EarlierHome,
    TakenNotHeard,
    TakenUnderWay,
    TakenNotReported,
    LentAgain,
    BackAgain,
    Misnamed,
    ShortThenAgain,
    Late,
    LateDeclined,
    AuthorityOfAm,
    AuthorityOfLb,
    HeardAgain,
    OldWaiting,
    OldStanding,
    OldUnderWay,
    DeclinedAfter,
    OldDeclined,
    AnothersAuthority,
    AnothersAwaited,
    AnothersDeclined,
    FaAtUnit,
    AmAtUnit,
    OwnFrame,
    LaAtUnit,
    LeAtUnit,
    LbAtUnit,
    ParkedPressed,
    Granted,
    UnderWay,
    Arrived,
    Ahead,
    AheadAndAsks,
    TwoUnderWay,
    OvertakenToBox,
    OvertakenToUnit,
    Thrice,
    LostFa,
    LostFe,
    LostAm,
}

impl Case for ChannelCase {
    const SUBJECT: Subject = Subject::Channel;

    fn place(self) -> usize {
        self as usize
    }
}

const CHANNEL: [&str; 52] = [
    "6, FE at the box",
    "6, AFE at the box",
    "6, LE at the box",
    "FA once more, FE again, its unit waits",
    "9, FA of the next move before the AM",
    "9, FA after its AM",
    "8, FA after its AM, at the end",
    "AM after the next FA, which was 9",
    "AM taken a second time",
    "AM of the last move, its unit under way",
    "9, AM of an earlier move",
    "9, AM of an earlier move, its unit under way",
    "8, AM of an earlier move, at the end",
    "24, a unit there that has not heard its FE",
    "24, a unit under way there",
    "24, a unit from there, its AM not taken yet",
    "LA delivered again, answered",
    "LB delivered again, taken",
    "7 or 9, LA or LB named wrongly",
    "2, then delivered again and answered",
    "FE heard after other events",
    "FE heard after the AFE",
    "FE heard that answers another's AM",
    "FE heard that answers an LB",
    "22, FE heard a second time",
    "22, an old FE, the next is awaited",
    "22, an old FE, Standing",
    "22, an old FE, under way",
    "AFE after the FE of the same move",
    "an old AFE, the next is awaited",
    "FE of another train",
    "FE of another train for the awaited posts",
    "AFE of another train",
    "6, FA at a unit",
    "6, AM at a unit",
    "6, a unit's own frame comes back to it",
    "LA at a unit",
    "LE at a unit",
    "LB at a unit",
    "a press on a parked train's unit",
    "a unit Granted, its train Running",
    "a unit Under way, its train Running",
    "a unit Arrived, its train Running",
    "a unit one post ahead of its train",
    "a unit one post ahead that has asked",
    "two units Under way, sections apart",
    "at the box after one that was sent later",
    "at a unit after one that was sent later",
    "a frame delivered three times",
    "an FA never delivered",
    "an FE never delivered",
    "an AM never delivered",
];
