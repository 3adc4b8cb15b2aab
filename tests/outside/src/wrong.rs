//! Rules that are wrong, each one known. A comparison that works by one of them has to find differences; one that finds
//! none would not see that error in the archive either.

macro_rules! wrong_rules {
    ($($rule:ident: $words:literal,)*) => {
        #[derive(Clone, Copy, Debug, PartialEq, Eq)]
        pub enum Wrong { $($rule,)* }

        impl Wrong {
            pub const ALL: &'static [Wrong] = &[$(Wrong::$rule,)*];

            pub fn words(self) -> &'static str {
                match self { $(Wrong::$rule => $words,)* }
            }
        }
    };
}

wrong_rules! {
    // Document 01, "Errors we have seen elsewhere".
    ConditionCountTimes: "a head loop's condition counts count times",
    ProductWraps: "the product of counts is taken in 64 bits and compared with the limit afterwards",
    ExcessEachIteration: "passes x excess is added in every iteration of the inner loops",
    InnermostCountAlone: "passes are capped by the innermost count alone",
    SumOfNoRecord: "body + condition over the limit is TOO BIG even if the count is 0",
    OverrunSkippedAtZero: "the overrun is skipped when the count is 0",
    // Document 01, "What the proofs must determine".
    RefusesAll: "everything is refused",
    AlwaysTheLimit: "every bound is the limit",
    StoresNothing: "nothing is stored in the table",
    FirstForAll: "routine 1's figure is repeated for the others",
    // Values.
    ScopeNotIncluded: "the scope's own count is left out of the product",
    ScopeSumWraps: "a scope's sum of passes x excess is taken in 64 bits and wraps",
    NegativeExcess: "an excess below 0 is taken off",
    MarkedCountsAsPlain: "the largest branch is taken, marked or not",
    // Refusals and their order.
    CutAtEnd: "CUT has the sheet's end as its place",
    TooBigAtRoutine: "TOO BIG has the routine's record as its place",
    TooBigAtOnce: "TOO BIG in one routine wins over a fault in a later one",
    LengthBeforeKind: "BAD LENGTH is judged before BAD KIND",
    CutBeforeLength: "a cut record is CUT even if its length is bad",
    DeepBeforeField: "TOO DEEP is judged before BAD FIELD",
    StrayBeforeField: "STRAY MARKER is judged before BAD FIELD",
    OneDeeper: "depth 25 is allowed",
    CallIsField: "a bad call is BAD FIELD",
    MarkerIsBadKind: "a marker that is not a first child is BAD KIND",
    LoopInAlternative: "a loop inside an alternative of the scope may hold a marker",
    ScopeInAlternative: "an alternative around the whole scope makes a marker in a loop stray",
    MarkersAside: "a marker may stand in conditions, inits, overrun and timeout statements of the scope",
    NoPlainAtEnd: "NO PLAIN BRANCH is judged when the whole alternative has been read",
    // What comes back.
    TooLongFirst: "TOO LONG is judged before NO ROOM",
    StoredBeforeAcceptance: "the routines before one that is TOO BIG are stored",
    LaterPlacesCleared: "the table's later places are set to 0",
    PartOfTooBig: "a sheet that is TOO BIG still has routine parts",
    PartOfOneRecord: "a routine part is its routine record alone",
    // Document 02, request L1.
    BoundMinusDeadline: "a margin is bound minus deadline",
    LateIsZero: "the margin of a late routine is 0",
    LaterMarginsCleared: "the later places of the margins are set to 0",
    MarginsUpToBadDeadline: "the margins before a deadline that is refused are stored",
    BoundsDespiteBadDeadline: "the bounds are stored although a deadline is refused",
    DeadlineOf2To40: "a deadline of 2^40 is taken",
    LaterDeadlinesJudged: "deadlines behind the last routine's are judged",
    LastBadDeadline: "BAD DEADLINE has the last routine out of range as its place",
    BadDeadlineFrom0: "BAD DEADLINE counts routines from 0",
    DeadlineBeforeSheet: "BAD DEADLINE is judged before the sheet's own refusal",
    ShortListBeforeNoRoom: "SHORT LIST is judged before NO ROOM",
    ShortListAfterTooLong: "SHORT LIST is judged after TOO LONG",
    OnlyDeadlinesShort: "only a short list of deadlines is SHORT LIST",
    OnlyMarginsShort: "only a short list of margins is SHORT LIST",
    // Document 02, request L2.
    CallsEntered: "a call counts its routine's constructs besides, and those that its routine's calls enter",
    CallsNotCounted: "a call is not counted",
    RoutinesCounted: "routine records are counted",
    SheetCounted: "the sheet record is counted",
    LastRoutineAlone: "only the last routine's constructs are counted",
    MarkersNotCounted: "a marker is not counted",
    EmptyNotCounted: "an empty sequence is not counted",
    LargestBranchAlone: "of an alternative's branches only the one with the most constructs is counted",
    ConditionTwice: "a head loop's condition is counted twice",
    EachIteration: "a loop's body and condition are counted in each iteration",
    TimeoutNotCounted: "a timed loop's statement is not counted",
    CountOfRefused: "a refusal reports the constructs read before the fault",
    CountOfNoRoom: "NO ROOM reports the sheet's constructs",
    CountOfTooBig: "TOO BIG reports the sheet's constructs",
    CountWithoutTable: "the bounds are not stored where the count is asked for",
}
