//! Faults to plant, one at a time.

use super::found_by::FOUND_BY;
use super::limits::{Bound, Files};
use std::cell::Cell;

/// A fault that the comparison has to find.
#[derive(Clone, Copy, Debug, PartialEq, Eq)]
pub enum Fault {
    Nothing,
    /// Some files are read by another limit than is due.
    By(Files, Bound),
    /// Some task files are taken in the old kind alone.
    OldKindAlone(Files),
    /// The checker takes weights although the ends are alike.
    AcceptsAlike,
    /// The checker finds the ends of every task alike.
    AllEndsAlike,
    /// The checker names an operator that breaks where the ends are alike.
    OperatorsBeforeEnds,
    /// The checker tells an operator that breaks as ends alike.
    OperatorAsAlike,
    /// The checker's place leaves idle operators out.
    CountsLiveOperators,
    /// The checker reports the last operator that breaks.
    LastOperator,
    /// The checker reads the weights before it has judged the task.
    WeightsFirst,
    /// Left-over bytes of a task file are let pass.
    LeftOverPasses,
    /// What doesn't increase in a file is taken.
    OrderUnjudged,
    /// What is outside its range in a file is taken.
    RangeUnjudged,
    /// Too many variables, too large a size or too many features in a file are taken.
    LimitUnjudged,
    /// A start that holds a listed pair is refused 7.
    HeldAsUnclosed,
    /// Pairs that aren't closed under an operator are taken.
    UnclosedTaken,
    /// A refused opening is told as one that is done.
    RefusedAsOpened,
    /// Too little room for an opening is refused as a workspace that isn't well formed.
    OpeningRoomAsWorkspace,
    /// An opening writes one word past what is due.
    WritesPastDue,
    /// A refused opening clears the room.
    SpoilsRefused,
    /// Slots may contain other slots' indices.
    UnreducedSlots,
    /// An idle operator's conditions count.
    CountsIdle,
    /// All values of unnamed variables count as possible.
    AllPossible,
    /// Only one considered state of each operator counts.
    OneState,
    /// The finder's answer separates but isn't the least.
    NotLeast,
    /// Weights that are found are told as "none".
    SeparatedAsNone,
    /// Too little room for an answer is refused as a workspace that isn't well formed.
    FindingRoomAsWorkspace,
    /// The answer "none" clears the room.
    NoneClears,
    /// Too little room goes unseen where the answer is "none".
    NoneWithoutRoom,
    /// An operator edit says that it is done and does nothing.
    IdleEdit,
    /// An edit that is done is told as "none".
    DoneAsNone,
    /// An added operator's before values are taken for its after values too.
    BeforesForAfters,
    /// An operator under which the pairs aren't closed is added.
    UnclosedAdded,
    /// A new goal may have values of any size.
    AnyGoalTaken,
    /// Places past an operator record's count are judged too.
    JudgesPastCount,
    /// A new start may hold a listed pair.
    StartHoldsPair,
    /// A new goal must not hold a listed pair.
    GoalHoldsNoPair,
    /// A refused start is written all the same.
    RefusedStartStays,
    /// Slots one apart are neighbours across the end of a row.
    NeighboursAcrossRows,
    /// A bay's room is judged before its labels.
    RoomBeforeLabels,
    /// A bay's room that is too short is filled as far as it goes.
    BuildingFillsShortRoom,
    /// The length of a bay's task file isn't told.
    LengthUntold,
    /// A bay's task has its start for its goal.
    StartAsGoal,
    /// The line has no line feed.
    NoLineFeed,
    /// The checker's line counts operators from 1.
    OperatorsFromOne,
    /// The checker's line has a comma behind its first word.
    CommaInLine,
    /// The program's limit of features is judged before the pairs.
    FeaturesBeforePairs,
    /// One byte more than the program's limit is let pass.
    OneByteMore,
    /// Unused bits of a workspace go unseen.
    UnusedBitsPass,
    /// A size of 65 in a workspace goes unseen.
    LargeSizePasses,
    /// Values of a workspace's goal that are outside their range go unseen.
    GoalUnseen,
    /// Single atoms pass as listed pairs of a workspace.
    SinglesPass,
    /// The start of a workspace may hold a listed pair.
    HeldPairsPass,
    /// Slots of a workspace that contain each other's indices go unseen.
    UnreducedPass,
    /// An operator is judged from its named variables only.
    NamedOnly,
    /// An after atom excuses the very pair that it is in.
    AfterExcuses,
    /// States with two paired unnamed values don't count.
    PairedStatesLeftOut,
    /// Numbers in longer forms are let pass.
    LongForms,
    /// Numbers with a needless second group are let pass.
    NeedlessSecondPasses,
    /// Numbers with a needless third group are let pass.
    NeedlessThirdPasses,
    /// A word outside the lent room is written.
    WritesOutside,
    /// A byte of a lent input is written.
    WritesInput,
    /// The first word's last feature is left out of a weight file.
    LeavesFeatureOut,
    /// A feature past the range is left out where it should be refused.
    CutsAtRange,
    /// No room is refused before the range of features is judged.
    RoomBeforeRange,
    /// By the letter a named variable's forgetting is left out where it is exclusive with a goal.
    NamedForgotten,
    /// By the letter nothing is left out.
    ExclusiveKept,
    /// Forgetting is left out where it is exclusive with a value of the start.
    StartExclusive,
    /// The lean call leaves out what the letter does, and no more.
    LeanAsLetter,
    /// The lean call leaves out named variables' forgetting only.
    LeanKeepsExclusive,
    /// Forgetting operators stand before the file's.
    ForgettingFirst,
    /// Forgetting operators stand by value and then by variable.
    ForgettingByValue,
    /// Pairs of a partial file keep their numbers.
    PairsKeepNumbers,
    /// The goal of a silent variable is its first value.
    SilentGoalFirst,
    /// The count of kept operators isn't judged.
    CountUnjudged,
    /// The count of kept operators is judged after the pairs.
    CountAfterPairs,
    /// Operators that are left out are counted too.
    CountsLeftOut,
    /// Pairs of a partial file are judged without "unknown".
    PairsByOwnSizes,
    /// Features of a partial file are limited by its own sizes.
    FeaturesByOwnSizes,
    /// A named goal value may be "unknown".
    NamesUnknown,
    /// A mark above 1 names its variable.
    AnyMarkNames,
    /// A refused call on a partial file, or a refused silencing, clears the room.
    SpoilsRefusedPartial,
    /// The checker's place leaves a partial file's own operators out.
    FileUncounted,
    /// Weights beside a partial file are limited by its own features.
    WeightsByOwnSizes,
    /// Marks that are too many are cut, and too few filled up.
    MarksLengthUnjudged,
    /// A byte above 1 among the marks names its variable.
    AnyByteNames,
    /// Marks are judged before the task.
    MarksBeforeTask,
    /// Silencing writes the goal values of silent variables too.
    SilentGoalsWritten,
    /// Silencing refuses what would be refused for its pairs.
    SilencingJudgesPairs,
    /// Silencing refuses what would be refused for its count of kept operators.
    SilencingCounts,
    /// Silencing doesn't judge the limits of what it writes.
    SilencesTooLarge,
    /// Labels that occur twice give pairs too.
    TwicePaired,
    /// Where labels repeat, only the gap gives pairs.
    GapPairsAlone,
    /// Labels that don't occur have operators too.
    AbsentSlide,
    /// The last label that repeats has no operators.
    AlikeStay,
    /// Unequal lots are judged before the gap.
    LotsBeforeGaps,
    /// Unequal lots are refused as a fault of the gap.
    LotsAsGaps,
    /// The goal's gap isn't judged.
    StartGapAlone,
    /// No gap, or several, pass where lots are equal.
    EqualGapsPass,
    /// A label of the goal only has to occur in the start.
    GoalLotsOccur,
    /// The last two labels aren't counted; the last one alone would follow from the others.
    LastLotsUncounted,
    /// Each operator is judged once, in its turn; what later drops leave unclosed stays.
    OnePass,
    /// An operator is judged again only for a dropped pair whose first atom it has before.
    FirstAtomWakes,
    /// An operator that is idle under the list that came is never judged.
    IdleStaysIdle,
    /// Mending keeps the pairs that the start holds.
    HeldPairsKept,
    /// Mending drops the pairs that the goal holds.
    GoalPairsDropped,
    /// Where a pair is dropped, the last one that could stay is dropped too.
    OnePairTooMany,
    /// Only pairs of two after atoms are dropped as unclosed.
    NamedPairsOnly,
    /// Where a pair is unclosed, all pairs of its operator's after atoms are dropped.
    ExcusedDropped,
    /// Pairs of an idle operator's after atoms are dropped.
    IdleDropped,
    /// Mending refuses a start that holds a pair.
    MendingRefusesHeld,
    /// Mending refuses a list that isn't closed.
    MendingRefusesUnclosed,
    /// Mending lets left-over bytes pass.
    MendingTakesLeftOver,
    /// No room is refused before a file to mend is judged.
    MendingRoomFirst,
    /// Mending needs room for the file that came.
    MendingRoomAsCame,
    /// Room that is too short is filled as far as it goes.
    MendingFillsShortRoom,
    /// A refused mending, or telling what is dropped, clears the room.
    MendingSpoilsRefused,
    /// Past the mended file stands the end of the one that came.
    MendingLeavesTail,
    /// The mended file has the count of the pairs that came.
    MendingCountAsCame,
    /// The dropped pairs are told in the order in which they were dropped.
    DroppedUnordered,
    /// The pairs that the start holds aren't told as dropped.
    DroppedWithoutHeld,
    /// The last dropped pair isn't told, if there are several.
    DroppedWithoutLast,
    /// What is at fault with a list is the last pair that the start holds.
    NamingLastHeld,
    /// What is at fault with a list is the last unclosed pair of the first operator.
    NamingLastPair,
    /// What is at fault with a list is told of the last operator.
    NamingLastOperator,
    /// What is at fault with a list is the least unclosed pair of all operators.
    NamingLeastOfAll,
    /// The number of the operator at fault leaves idle ones out.
    NamingCountsLive,
    /// What is at fault with a list is told of operators before the start.
    NamingOperatorsFirst,
    /// The number of the operator at fault is the answer's value too.
    NamingInValue,
    /// What is at fault with a list is refused.
    NamingRefuses,
    /// Where the start holds a pair, the second word is cleared.
    NamingFillsBothWords,
    /// Where a list is good, two words are cleared.
    NamingClearsGood,
    /// Where the start holds a pair, one word is room enough.
    NamingHeldInOneWord,
    /// Where a list is good, no room is needed.
    NamingGoodInNoWord,
    /// The two words are asked for before a file is judged for its list.
    NamingRoomFirst,
    /// Where what is at fault can't be told, the words are cleared.
    NamingSpoilsRefused,
    /// A number not in shortest form is refused as one that has no end.
    LongAsEndless,
    /// A number whose third byte says that more follows is refused as not in shortest form.
    EndlessAsLong,
    /// Input that ends is refused as a number not in shortest form.
    EndsAsLong,
    /// Input that ends is refused as a number that has no end.
    EndsAsEndless,
    /// Input that ends inside a number is refused as a number that has no end.
    CutAsEndless,
    /// Input that ends behind a second byte is refused as a number that has no end, as before.
    SecondCutAsEndless,
    /// A needless third group is refused as a number that has no end, as before.
    NeedlessThirdAsEndless,
    /// A number whose third byte says that more follows is refused as input that ends if nothing does.
    EndlessWaitsForMore,
    /// A number whose third byte says that more follows is refused as not in shortest form if 0 does.
    EndlessZeroAsLong,
    /// Badly formed numbers of a task or weight file are refused 1, as before.
    FormsAsBefore,
    /// Badly formed numbers of a bay file are refused 1, as before.
    BayFormsAsBefore,
    /// Badly formed numbers of a partial file are refused 1, as before.
    PartialFormsAsBefore,
    /// Badly formed numbers of a task file to silence are refused 1, as before.
    SilencingFormsAsBefore,
    /// Badly formed numbers of a task file to mend are refused 1, as before.
    MendingFormsAsBefore,
    /// The place is one byte further.
    PlaceOneByteOn,
    /// The place and the bytes are those of the number before.
    PlaceOneNumberEarly,
    /// The place counts numbers.
    PlaceInNumbers,
    /// The place is told in sixteen bits.
    PlaceInSixteenBits,
    /// The place is where the number ends.
    PlaceBehindPart,
    /// The length is one too many.
    LengthOneMore,
    /// The length is 0.
    NoLength,
    /// At most one byte is shown.
    OneByteShown,
    /// All that follows is shown too.
    ShownToTheEnd,
    /// The second word is where the part ends.
    EndForLength,
    /// The two words are the other way round.
    LengthFirst,
    /// Of a number not in shortest form the 0 isn't shown.
    ZeroByteUnshown,
    /// Of a number that has no end a fourth byte is shown.
    FourthByteShown,
    /// Of a number that has no end one byte is shown.
    FirstByteOfEndless,
    /// Of a number that has no end two bytes are shown, as before.
    TwoBytesOfEndless,
    /// What is there of a number that is cut isn't shown.
    CutNumberUnshown,
    /// A number that is cut has its place at the end of the file.
    CutNumberAtEnd,
    /// Where the file ends before a number begins, the last one is shown.
    LastNumberShown,
    /// Where a number doesn't increase, the one before is shown.
    OrderAtNumberBefore,
    /// Where a number doesn't increase, the one before is shown too.
    OrderWithNumberBefore,
    /// Too many features have their place behind the sizes.
    FeaturesBehindSizes,
    /// Too many features have their place at the count of variables.
    FeaturesAtCount,
    /// Of too many features all sizes are shown.
    FeaturesAtAllSizes,
    /// Too many slots or too few have their place at the rows.
    SlotsAtRows,
    /// Too many slots or too few have their place behind the columns.
    SlotsBehindSides,
    /// Left-over bytes have a place.
    LeftOverPlaced,
    /// Pairs at fault have a place.
    PairsPlaced,
    /// Too many kept operators have a place.
    CountPlaced,
    /// Labels at fault have a place.
    LabelsPlaced,
    /// Without a place the part is empty at the task's end.
    UnplacedAtEnd,
    /// With nothing refused the part is empty at the task's end.
    GoodAtEnd,
    /// With nothing refused the whole task is shown.
    GoodShowsAll,
    /// Without a place the part lies in the weights.
    UnplacedInWeights,
    /// Where the weights are refused without a place, the part lies in them.
    UnplacedWeightsThere,
    /// Without a place the words stay as they are.
    UnplacedStays,
    /// What is shown of the task is said to lie in the weights.
    TaskShownInWeights,
    /// What is shown of the weights is said to lie in the task.
    WeightsShownInTask,
    /// Places in the weights count from the task's start.
    WeightsBehindTask,
    /// Nothing is shown of a task that is too long for the finder.
    LongInputUnshown,
    /// The weights are judged before the task.
    WeightsShownFirst,
    /// The weights are judged beside a task that is refused without a place.
    WeightsBesideUnplaced,
    /// Weights beside a partial file are shown by its own features.
    ShownByOwnSizes,
    /// What is shown of a partial file goes by the lean call.
    ShownLean,
    /// What is shown of a bay is said to lie in weights.
    BayShownInWeights,
    /// One word is room enough for what is shown.
    OneWordTaken,
    /// Without a place no room is needed.
    RoomForPlacesAlone,
    /// With nothing refused no room is needed.
    RoomForFaultsAlone,
    /// Room that is too short for what is shown is cleared.
    ShortRoomCleared,
    /// The word behind the two is cleared.
    ThirdWordCleared,
    /// The last of many words is cleared.
    LastWordCleared,
    /// Showing what is at fault is refused for it.
    DisplayRefuses,
    /// The refusal's number is the value of what is shown.
    NumberInValue,
    /// The length is the value of what is shown.
    LengthInValue,
    /// Showing what is at fault writes a word outside the room.
    DisplayWritesOutside,
    /// Showing what is at fault writes a byte of the weights.
    DisplayWritesWeights,
    /// The finder's line has no place.
    LineWithoutPlace,
    /// The finder's line counts places from 1.
    LinePlaceFromOne,
    /// The finder's line names a file.
    LineNamesFile,
    /// The finder's line has a place for left-over bytes.
    LinePlacesLeftOver,
    /// The finder's line has a place for input that is too long.
    LinePlacesLongInput,
    /// The checker's line has no place.
    CheckLineWithoutPlace,
    /// The checker's line has a place without its file.
    CheckLineWithoutFile,
    /// The checker's line names the other file.
    CheckLineOtherFile,
    /// The checker's line names no file where it is the weights.
    CheckLineNamesTaskAlone,
    /// The checker's line has a place for left-over bytes.
    CheckLinePlacesLeftOver,
    /// Labels of a bay end at 9, as before.
    LabelsAsBefore,
    /// A side of a bay may be as long as a bay has slots.
    SidesAsSlots,
    /// The bay builder's file has no third groups.
    BuildCutsNumbers,
    /// More operators kept than a number of two bytes counts are refused, as before.
    KeptAsBefore,
    /// As many operators kept as a number counts are refused.
    OneKeptLess,
    /// One operator more than a number counts is kept.
    OneKeptMore,
    /// The file built of a partial one has no third groups.
    BuiltCutsNumbers,
    /// Silencing takes no more features than before.
    SilencesAsBefore,
    /// The file of a silenced task has no third groups.
    SilencingCutsNumbers,
    /// The mended file has no third groups.
    MendingCutsNumbers,
    /// The dropped pairs have no third groups.
    DroppedCutsNumbers,
    /// The checker's place is told in sixteen bits.
    OperatorInSixteenBits,
    /// The checker's line has six digits for an operator at most.
    OperatorInSixDigits,
    /// The finder's line has the library's limit of features.
    LineFeaturesMoved,
    /// The range of a weight file without a task is the one of before.
    WeightFileAsBefore,
    /// The range of a weight file without a task has one feature more.
    WeightFileOneMore,
    /// A weight file has no third groups.
    WeightFileCutsNumbers,
    /// A workspace of more features than before isn't taken.
    WorkspaceAsBefore,
    /// A workspace of one feature too many is taken.
    WorkspaceOneMore,
    /// An opening leaves listed pairs out that weren't there before.
    OpenedPairsAsBefore,
    /// An opening leaves features out of the slots that weren't there before.
    OpenedSlotsAsBefore,
    /// An added operator doesn't reach the words that weren't there before.
    EditAsBefore,
    /// The finder's answer doesn't reach the words that weren't there before.
    AnswerAsBefore,
    /// After an opening a slot keeps the index of one that was pending.
    IndexKept,
    /// The same, where there are enough features that slots stay pending.
    IndexKeptAmongMany,
    /// The same after an added operator.
    IndexKeptByEdit,
    /// An opening with many operators leaves a slot empty.
    SlotLeftOut,
    /// An opening doesn't settle the slots that are pending at its end.
    LastSettlingLeftOut,
    /// An opening of a partial file doesn't settle the slots that are pending at its end.
    LastPartialSettlingLeftOut,
    /// An opening of a partial file settles no slots of the forgetting operators.
    ForgettingUnsettled,
    /// An added operator's new slots aren't settled.
    EditUnsettled,
    /// The first pair of a gap list counts from the first two-variable feature.
    FirstPairFromSingles,
    /// Gaps are read as they are, not as less one.
    GapsReadWhole,
    /// Sums of gaps are kept in sixteen bits.
    GapSumsInSixteenBits,
    /// A gap list of pairs may begin with single atoms.
    SinglesInGapLists,
    /// A gap list may lead one past its range.
    GapsOnePast,
    /// A gap that leads past the range is refused as one that doesn't increase.
    PastRangeUnordered,
    /// A gap list is judged by its range once it is read to its end.
    RangeAtListEnd,
    /// Where a mark is due, a badly formed number is refused as another number.
    MarkByFirstByte,
    /// Where a mark is due, another number is refused 2.
    MarkRefusedAsLimit,
    /// Where an old task is due, a mark is refused 3.
    OldRefusedAsRange,
    /// A task file of the new kind is taken where it should be made.
    ToNewTakesEither,
    /// A task file of the old kind is taken where it should be made.
    ToOldTakesEither,
    /// Weights of the old kind are taken where new ones are due.
    WeightsOfEitherKind,
    /// Weights are read in the kind of the task.
    WeightKindOfTask,
    /// Beside a partial file weights are always read as old ones.
    PartialTakesOldWeights,
    /// What is shown of weights is always of old ones.
    ShownAsOldWeights,
    /// Places in files of the new kind count from behind the mark.
    MarkUncounted,
    /// A task file of the new kind is written without its mark.
    MarkUnwritten,
    /// A task file of the old kind is written behind a mark.
    MarkKept,
    /// Gaps are written as they are, not less one.
    GapsWrittenWhole,
    /// The first pair of a gap list is written from the first two-variable feature.
    FirstWrittenFromSingles,
    /// A file of the old kind is written with the gaps of the new one.
    GapsLeft,
    /// A weight file of the new kind is written without its mark.
    WeightMarkUnwritten,
    /// The mark of a weight file is written behind the count.
    WeightMarkBehindCount,
    /// A weight file of the old kind is written behind a mark.
    WeightMarkKept,
    /// A converted file has no third groups.
    ConversionCutsNumbers,
    /// Converting needs room for the file that came.
    ConversionRoomAsCame,
    /// Converting needs one byte more than is due.
    ConversionRoomOneMore,
    /// Room that is too short for a converted file is filled as far as it goes.
    ConversionFillsShortRoom,
    /// The byte behind a converted file is cleared.
    ConversionClearsBehind,
    /// A refused conversion clears the room.
    ConversionSpoilsRefused,
    /// No room is refused before a file to convert is judged.
    ConversionRoomFirst,
    /// No room is refused before the pairs of a task to convert are judged.
    ConversionRoomBeforePairs,
    /// The pairs of a task to convert aren't judged.
    ConversionTakesUnclosed,
    /// Badly formed numbers of a file to convert are refused 1, as before.
    ConversionFormsAsBefore,
    /// Weights to convert are judged before the task.
    WeightsConvertedFirst,
    /// Weights to convert may be features of any task.
    WeightsConvertedWidely,
    /// A mended file is always of the old kind.
    MendingWritesOld,
    /// A mended gap list keeps the gaps that came.
    MendingKeepsGaps,
    /// The dropped pairs of a task of the new kind are told by their gaps.
    DroppedByGaps,
    /// What is made of a task of the new kind by silencing has its mark.
    SilencingKeepsMark,
    /// What is made of a task of the new kind by silencing lists its pairs by gaps.
    SilencingByGaps,
}

use Fault::Nothing;

thread_local! {
    // Tests run side by side, each with a fault of its own.
    static PLANTED: Cell<Fault> = const { Cell::new(Nothing) };
}

pub fn plant(fault: Fault) {
    PLANTED.set(fault);
}

/// Plants the fault whose name is in FLORUMEJA_FAULT.
pub fn plant_from_environment() {
    let Ok(name) = std::env::var("FLORUMEJA_FAULT") else {
        return;
    };
    let mut faults = FOUND_BY.iter().flat_map(|(_, faults)| *faults);
    let named = faults.find(|fault| format!("{fault:?}") == name);
    plant(*named.expect("FLORUMEJA_FAULT names a fault"));
}

pub fn planted(fault: Fault) -> bool {
    PLANTED.get() == fault
}

/// The fault planted in this thread.
pub fn planted_fault() -> Fault {
    PLANTED.get()
}
