//! Readings of the request that its settled points tell apart from the right one, and likely mistakes.

macro_rules! wrong {
    ($($name:ident: $text:literal,)*) => {
        #[derive(Debug, Copy, Clone, PartialEq, Eq)]
        pub enum Wrong {
            /// The right reading.
            Nothing,
            $($name,)*
        }

        /// Each wrong reading, in words; those of `SAME` too.
        pub const WRONG: &[(Wrong, &str)] = &[$((Wrong::$name, $text),)*];
    };
}

wrong! {
    // the order of refusals
    RaggedBothFirst: "both are tested for ragged lists before either for too many",
    LongFirst: "too many comes before ragged",
    LongBothFirst: "both are tested for too many before either for ragged lists",
    SecondFirst: "the second is tested before the first",
    FlagsAfterLong: "the count of flags is tested after too many",
    FlagsLast: "the counts of flags are tested after all other",
    RoomFirst: "room is tested before all other",
    RoomBeforeSecond: "room is tested before the second output",
    // ragged
    NumbersUntested: "any count of numbers is taken",
    NumbersTwoOver: "two numbers over are taken",
    FlagsUntested: "any count of flags is taken",
    FlagsFewTaken: "too few flags are taken",
    FlagsManyTaken: "too many flags are taken",
    FlagsOfOne: "one closed vertex has one flag",
    FlagsEachVertex: "an open output has a flag for its last vertex too",
    FlagsOpen: "a closed output has a flag less than vertices",
    FlagsEither: "a flag a vertex, or one less, is taken",
    FlagsOfFew: "any count of flags is taken of fewer than two vertices",
    FirstUntested: "the first output is not tested",
    SecondUntested: "the second output is not tested",
    // too many
    LongUntested: "any count of vertices is taken",
    LongUntestedSecond: "any count of vertices is taken of the second",
    MostOut: "12,288 vertices are refused",
    MostMore: "12,289 vertices are taken",
    MostOfSource: "4,097 vertices are refused, as of a source",
    MostOfRound: "8,193 vertices are refused, as of a round output",
    LongSegments: "12,288 segments are taken, which open outputs of 12,289 vertices have",
    LongSum: "12,288 vertices are the limit of both together",
    LongWraps: "vertices are counted in 16 bits",
    // what a refusal tells
    PlaceOutput: "the second's refusal has place 1",
    PlaceVertices: "too many has the count of vertices for its place",
    PlaceRoom: "No. 4 has the count of entries for its place",
    RefusedCounts: "No. 4 tells the count of entries",
    RefusedRest: "No. 4 tells the vertices that only one has",
    RefusedMarks: "a refusal tells whether the marks differ",
    RefusedZeros: "a refusal sets the places lent to zero",
    RaggedOtherNumber: "a wrong count of flags is No. 2",
    // room
    RoomUntested: "no room is asked for, and what fits is written",
    RoomNoNumbers: "room for fields is enough",
    RoomNoFields: "room for vertex numbers is enough",
    RoomEither: "room in one of the two is enough",
    RoomSum: "room of both together is asked for",
    RoomOneMore: "one place more than the list is needed",
    RoomOneLess: "one place less than the list is enough",
    RoomAtLeastOne: "equal outputs need a place",
    RoomForBoth: "each vertex that both have needs a place",
    RoomForLonger: "each vertex of the longer needs a place",
    RoomForRest: "vertices that only one has need a place",
    RoomWrites: "what fits is written though room is short",
    RoomWritesNumbers: "vertex numbers that fit are written though room is short",
    // numbers
    ZerosEqual: "-0 equals +0",
    SignsEqual: "signs are not compared",
    NanDiffers: "a NaN differs from a NaN",
    NanByBits: "NaNs are compared by bits",
    NanBySign: "NaNs of unlike signs differ",
    NanByQuiet: "a NaN that signals differs from one that does not",
    NanAny: "a NaN equals every number",
    NanInfinity: "a NaN equals an infinity",
    InfinitiesEqual: "infinities are one",
    SubnormalsZero: "numbers next to zero are zeros of their sign",
    Single: "numbers are compared in single precision",
    Near: "numbers within 1e-9 are equal",
    HighWord: "the high 32 bits are compared",
    LowWord: "the low 32 bits are compared",
    XUntested: "x is not compared",
    YUntested: "y is not compared",
    BulgeUntested: "bulges are not compared",
    LastBulgeBoth: "the last bulge of two open outputs is not compared",
    LastBulgeEither: "a bulge is not compared where no segment of one output leaves",
    // flags
    FlagsNone: "flags are not compared",
    FlagsAsMarks: "flags are compared as set or clear",
    FlagsLowBit: "the lowest bit of flags is compared",
    FlagsOfBoth: "a flag is compared where both have one",
    FlagMissing: "a flag that one alone has differs always",
    FlagMissingOne: "no segment has flag 1",
    FlagEntering: "the flag is that of the segment entering a vertex",
    FlagWraps: "the flag of an open output's last vertex is its first one",
    FlagLastUntested: "the last vertex's flag is not compared",
    FlagsOfMarks: "flags are compared where the marks are equal",
    // the list
    FirstOut: "vertex 0 is not compared",
    LastOut: "the last vertex that both have is not compared",
    FirstAlone: "the list ends with its first entry",
    AllListed: "each vertex is listed, with fields 0 where nothing differs",
    FlagAloneOut: "a vertex that differs in its flag alone is not listed",
    RestListed: "vertices that only one has are listed with all fields",
    Falling: "the list falls",
    FromOne: "vertices are numbered from 1",
    NumberOfNumbers: "a vertex has the number of its x in the list",
    NumberByte: "vertex numbers have 8 bits",
    FieldsSwapped: "x and y change places",
    FieldsFlagFirst: "the flag is bit 0, and x bit 1",
    FieldsReversed: "the flag is bit 0, and x bit 3",
    FieldsShifted: "x is bit 1",
    FieldsCount: "fields are counted",
    FieldsFirst: "the first field that differs is told",
    FieldsLast: "the last field that differs is told",
    FieldsAll: "all fields are told",
    FieldsAtVertex: "fields stand at their vertex's place",
    RestZeros: "places past the list are set to zero",
    RestZeroNumbers: "vertex numbers past the list are set to zero",
    RestZeroFields: "fields past the list are set to zero",
    Ended: "a zero stands after the list, where there is room",
    // counts and marks
    CountFields: "fields are counted and not entries",
    CountBoth: "the vertices that both have are counted",
    OnlyFirst: "vertices that the first alone has are counted",
    OnlySecond: "vertices that the second alone has are counted",
    OnlySegments: "segments that only one has are counted",
    OnlyNumbers: "numbers that only one has are counted",
    OnlyWhether: "it is told whether one has more vertices",
    OnlyNone: "nothing is told of vertices that only one has",
    OnlyInCount: "vertices that only one has are counted with the list",
    MarksEqual: "1 is for equal marks",
    MarksFirst: "the first's mark is told",
    MarksSecond: "the second's mark is told",
    MarksBoth: "1 is where either is closed",
    MarksNone: "marks are not compared",
    MarksOfFew: "marks of outputs without a segment are not compared",
    MarksLast: "marks and the vertices that only one has change places",
    // outputs in the same places
    SharedEqual: "outputs in the same places are equal, without a test",
    SharedEqualLater: "outputs in the same places are equal, once they are tested",
    // these no pair can tell
    FlagsBeforeNumbers: "the count of flags is tested before that of numbers",
    LongByNumbers: "too many is a count of numbers over 36,864",
    RoomLater: "room is asked for entry by entry, before any is written",
    NanMadeOne: "each NaN is made one before bits are compared",
    FlagsClosed: "the flag of the last vertex is asked for where the output is closed",
}

/// Readings that come to the same, and why.
pub const SAME: &[(Wrong, &str)] = &[
    (Wrong::FlagsBeforeNumbers, "both are No. 1, with place 0"),
    (
        Wrong::LongByNumbers,
        "ragged lists are refused before, and three numbers a vertex are 36,864",
    ),
    (
        Wrong::RoomLater,
        "room for the first entries is short only where room for all is",
    ),
    (
        Wrong::NanMadeOne,
        "two NaNs have one NaN's bits then, and no number has",
    ),
    (
        Wrong::FlagsClosed,
        "an output that is not refused has that flag where it is closed and of two vertices or more",
    ),
];
