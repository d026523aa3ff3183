//! Planted faults: each a mistake somebody could make in the core. The tests are tested by
//! checking that the same random lists of calls tell each of them apart.

/// A set of planted faults. Generic, so that the clean set costs nothing at run time.
pub trait FaultSet: Copy {
    fn has(self, fault: Fault) -> bool;
}

/// No faults.
#[derive(Clone, Copy, Default, Debug)]
pub struct Clean;

impl FaultSet for Clean {
    #[inline(always)]
    fn has(self, _: Fault) -> bool {
        false
    }
}

const WORDS: usize = 8;

/// Some faults, one bit each.
#[derive(Clone, Copy, Default, PartialEq, Eq, Debug)]
pub struct Faults([u64; WORDS]);

impl Faults {
    pub fn none() -> Faults {
        Faults([0; WORDS])
    }

    pub fn with(mut self, fault: Fault) -> Faults {
        let (word, bit) = place(fault);
        self.0[word] |= bit;
        self
    }
}

/// The word of a fault and its bit there.
fn place(fault: Fault) -> (usize, u64) {
    let number = fault as usize;
    (number / u64::BITS as usize, 1 << (number % u64::BITS as usize))
}

impl From<Fault> for Faults {
    fn from(fault: Fault) -> Faults {
        Faults::none().with(fault)
    }
}

impl FaultSet for Faults {
    fn has(self, fault: Fault) -> bool {
        let (word, bit) = place(fault);
        self.0[word] & bit != 0
    }
}

/// Where a fault is planted.
#[derive(Clone, Copy, PartialEq, Eq, Debug)]
pub enum Layer {
    /// In the calls over the stores only: it concerns what only they hold, or shows only where a
    /// store is damaged.
    Stores,
    /// In both layers, so that either one shows it up in the other.
    Both,
}

macro_rules! faults {
    ($($(#[$doc:meta])* $name:ident in $layer:ident,)*) => {
        /// A planted fault.
        #[derive(Clone, Copy, PartialEq, Eq, Debug)]
        #[repr(u32)]
        pub enum Fault { $($(#[$doc])* $name,)* }

        impl Fault {
            pub const ALL: &'static [Fault] = &[$(Fault::$name,)*];

            pub fn layer(self) -> Layer {
                match self { $(Fault::$name => Layer::$layer,)* }
            }
        }
    };
}

// Each fault has a bit of its own.
const _: () = assert!(Fault::ALL.len() <= WORDS * u64::BITS as usize);

faults! {
    // Values and model.
    /// A negative sample packed by its magnitude.
    NegativeSampleAsMagnitude in Both,
    /// Observe may make an asset-change item unavailable.
    AssetItemTakesUnavailable in Both,
    /// Normal may not carry a native code, as it was while one condition stood on an item.
    NormalCodeRefused in Both,
    /// A discrete item takes samples.
    DiscreteTakesSamples in Both,
    /// A discrete item cannot be made unavailable.
    DiscreteWithoutUnavailable in Both,
    /// More than one asset-change item is accepted.
    ManyAssetItems in Stores,
    /// Category 4 is refused, as it was before there were discrete items.
    DiscreteRefused in Both,
    /// Category 5 is accepted.
    CategoryFive in Both,
    /// More than one discrete item is refused.
    OneDiscreteItem in Both,
    /// An all-zero name cell is accepted.
    SpareNameCells in Stores,
    /// Bytes behind the first zero of a name cell are not looked at.
    BytesBehindNames in Stores,
    /// A hyphen passes in a name.
    HyphenInNames in Both,
    /// The letters are one range from `A` to `z`, with what stands between `Z` and `a`.
    BetweenCasesInNames in Both,
    /// `Z` is refused in a name: the range of the capitals ends one early.
    LastCapitalRefused in Both,
    /// The highest bit of a name's byte is not looked at.
    HighBitInNames in Both,
    /// Two wrong bytes in a name make up for each other.
    WrongBytesCancel in Both,
    /// A name that reaches behind the last whole 32 bytes of the names is not looked at.
    LastNamesUnseen in Both,

    // Paths.
    /// The second form of a path ignores the item type.
    ItemTypeIgnored in Both,
    /// The second form of a path may select nothing.
    EmptySecondForm in Both,
    /// The second form of a path may lack its closing bracket.
    OpenBracket in Both,
    /// Only the first component of the type named is taken.
    FirstOfTypeOnly in Both,
    /// A component type selects without what stands below it.
    NoAncestors in Both,
    /// A component type is compared up to the length given.
    TypePrefix in Both,

    // Request texts.
    /// `/probe` with something behind it is an invalid request.
    ProbeAloneOnly in Both,
    /// A text of 256 bytes is refused.
    ShortTexts in Both,
    /// A space passes in a text.
    SpacesInTexts in Both,
    /// Byte 127 passes in a text.
    DeleteInTexts in Both,
    /// Bytes above 127 pass in a text: the upper bound is compared with sign.
    HighBytesInTexts in Both,
    /// `~` is refused in a text: the range ends one early.
    TildeRefused in Both,
    /// A trailing `&` is overlooked.
    TrailingAmpersand in Both,
    /// A repeated parameter replaces the earlier one.
    RepeatsAccepted in Both,
    /// The text of `interval` need not be a number.
    IntervalUnread in Both,
    /// `interval` with `at` is unsupported where it is invalid.
    IntervalWithAtUnsupported in Both,
    /// A leading zero does not count among the 19 digits.
    LeadingZeroUncounted in Both,
    /// Numbers above 2^63 - 1 are read.
    NumbersBeyondRange in Both,
    /// `:` is the digit behind `9`.
    ColonAsDigit in Both,
    /// An id of more than 32 bytes in an asset request is malformed.
    LongIdMalformed in Both,

    // Sample.
    /// A sample's next number follows the last row rather than the last number considered.
    NextFromLastMatch in Both,
    /// A sample's next number is from + count, whatever is there.
    NextBeyondLast in Both,
    /// Count limits the rows rather than the numbers considered.
    CountLimitsRows in Both,
    /// Rows are put in the order of their times.
    OrderByTime in Both,
    /// An absent count of 100 is refused where the ring is smaller.
    DefaultCountRefused in Both,
    /// A count above N is accepted.
    CountAboveNAccepted in Both,
    /// A start that has been overwritten is moved up to first.
    OverwrittenStartMoved in Both,
    /// A sample from last + 1 is refused.
    EmptyTailRefused in Both,
    /// `from=0` is taken as the number 0.
    FromZeroTaken in Both,
    /// The path is looked at before the count.
    PathBeforeCount in Both,
    /// The range is looked at before the path.
    RangeBeforePath in Both,

    // Late and early.
    /// A number below first is early, and one above the end late.
    LateAndEarlyExchanged in Both,
    /// A number above the end is late too.
    AllLate in Both,
    /// A number below first is early too.
    AllEarly in Both,
    /// Late is still 12.
    LateAsTwelve in Stores,
    /// Early is still 12.
    EarlyAsTwelve in Stores,
    /// first itself, where a text gives it, is late.
    FirstLate in Both,
    /// Late is judged against B: an overwritten number is early.
    OverwrittenEarly in Both,
    /// The range begins at B: an overwritten number is in it.
    RangeFromOrigin in Both,
    /// A start that has been overwritten is moved up to first where its count reaches that far.
    PartlyLostStartMoved in Both,
    /// An early start is moved down to last + 1.
    EarlyStartMoved in Both,
    /// `at=0` is taken as first.
    AtZeroAsFirst in Both,
    /// The range is looked at before the count.
    RangeBeforeCount in Both,
    /// Space for the sizes is looked at before the range.
    SpaceBeforeRange in Both,
    /// The ring's contents are looked at before a number is late or early.
    RingBeforeRange in Stores,

    // Current.
    /// `at` sees only what the ring holds.
    AtFromRingOnly in Both,
    /// `at` leaves out the number itself.
    AtExclusive in Both,
    /// `at` at last + 1 is accepted.
    AtBeyondLast in Both,
    /// Current sees only what the ring holds.
    CurrentFromRingOnly in Both,
    /// The next number of `at` follows `at`.
    NextFromAt in Both,

    // Recording.
    /// Same is looked at before the kind.
    SameBeforeKind in Both,
    /// The last number is looked at before Same.
    SpentBeforeSame in Both,
    /// Same after any equal earlier value that is still held.
    SameAfterAnyEqual in Both,
    /// Same compares low words without the kind.
    SameWithoutKind in Both,
    /// Same never.
    NeverSame in Both,
    /// The last number is taken for spent one early.
    SpentTooEarly in Both,
    /// A missing time stays 0.
    MissingTimeKept in Both,
    /// A time below the newest one is lifted to it.
    TimesMadeToRise in Both,
    /// Same renews the time of the latest value.
    SameRenewsTime in Stores,
    /// What leaves the ring does not reach the checkpoint.
    CheckpointNotUpdated in Stores,
    /// A checkpoint is written once and never again.
    CheckpointWrittenOnce in Stores,
    /// What leaves the ring reaches the checkpoint of the new value's item.
    CheckpointOfNewItem in Stores,
    /// A checkpoint gets the number of the value that pushed it out.
    CheckpointWithNewNumber in Stores,
    /// The ring place is one off once the ring has wrapped.
    RingPlaceAfterWrap in Stores,
    /// Ring places are counted from number 1 rather than from B.
    RingPlaceFromOne in Stores,
    /// first is one too low.
    FirstTooLow in Both,
    /// first is one too high.
    FirstTooHigh in Both,
    /// Start writes no checkpoint where the ring is smaller than the number of items.
    StartWithoutCheckpoint in Stores,
    /// Start leaves what stood in unused places.
    StartKeepsOldWords in Stores,

    // Discrete events.
    /// An equal value of a discrete item is Same.
    DiscreteSame in Both,
    /// An equal Unavailable of a discrete item is Same.
    DiscreteUnavailableSame in Both,
    /// An equal value of a discrete item is Same where no number is left.
    DiscreteSameSpent in Both,
    /// An equal value of a discrete item is Same in a delivery.
    DiscreteSameInBatch in Both,
    /// Every event counts when equal, and nothing else: told by the value rather than the item.
    DiscreteByKind in Both,
    /// Items of category 1 are discrete too.
    EventsDiscrete in Both,
    /// An equal value leaves the latest entry of a discrete item as it is.
    RepeatLeavesLatest in Stores,
    /// Store-asset's event goes to a discrete item that comes first.
    AssetEventForDiscrete in Both,
    /// A discrete item's latest word is tested before a value is recorded.
    DiscreteLatestTested in Stores,

    // Conditions: what an observation does to the codes that stand.
    /// A replaced code moves behind the others.
    ReplacedToEnd in Both,
    /// A replaced code keeps the number that it was added by.
    ReplacedKeepsNumber in Both,
    /// A code's Warning and its Fault stand side by side.
    LevelsApart in Both,
    /// Code 0 is never found among those that stand, and is added again.
    CodeZeroNeverFound in Stores,
    /// Unavailable clears nothing.
    UnavailableClearsNothing in Both,
    /// Normal of one code clears all.
    NormalClearsAll in Both,
    /// Normal 0 clears code 0 only.
    NormalZeroClearsOne in Both,
    /// The last code's Normal leaves the item without a row.
    LastNormalLeavesNothing in Both,
    /// The last of the codes takes the place of a cleared one.
    LastFillsGap in Stores,
    /// A cleared code's entry moves to the end and stays there.
    ClearedEntryStays in Stores,

    // Conditions: Same and crowded.
    /// Same compares the item's newest observation alone, as it was while one condition stood.
    SameByNewest in Both,
    /// A Normal of a code that doesn't stand is recorded.
    UnknownNormalRecorded in Both,
    /// Any Normal after Unavailable is recorded, not Normal 0 alone.
    NormalAfterUnavailable in Both,
    /// Normal 0 after Unavailable is Same too.
    NormalZeroAlwaysSame in Both,
    /// A ninth code pushes the first out.
    NinthPushesOut in Both,
    /// An eighth code is crowded.
    EighthCrowded in Both,
    /// Crowded is looked at before Same: with eight codes a repeated level is crowded.
    CrowdedBeforeSame in Both,
    /// With eight codes another level of one of them is crowded.
    ReplacingCrowded in Both,
    /// The last number is looked at before crowded.
    SpentBeforeCrowded in Both,

    // Conditions: snapshots.
    /// Current gives the first of an item's rows alone.
    FirstRowOnly in Both,
    /// An item's rows are put in the order of their numbers.
    RowsByNumber in Both,
    /// `at` gives what stands on a condition item now.
    AtFromLatest in Both,
    /// The checkpoint keeps only the newest of an item.
    CheckpointNewestOnly in Stores,
    /// Only Warnings and Faults that leave the ring reach the checkpoint.
    ClearsStayOutOfCheckpoint in Stores,

    // Conditions: the written form of damaged entries.
    /// Observe does not test its item's entries.
    ObserveFormUntested in Stores,
    /// Current does not test the entries it gives.
    CurrentFormUntested in Stores,
    /// Overwriting does not test the checkpoint.
    OverwritingFormUntested in Stores,
    /// `at` does not test the checkpoints.
    AtFormUntested in Stores,
    /// `at` does not test the checkpoint of an item that the ring clears.
    ClearedFormUntested in Stores,
    /// Same is looked at before the form.
    SameBeforeForm in Stores,
    /// A latest table without a used entry passes.
    EmptyLatestPasses in Stores,
    /// Used entries behind an unused one pass.
    GapsPass in Stores,
    /// Times of unused entries are not tested.
    UnusedTimesPass in Stores,
    /// Packed words of unused entries are not tested.
    UnusedPackedPass in Stores,
    /// Several entries pass although one isn't active.
    InactivePass in Stores,
    /// Two entries of one code pass.
    EqualCodesPass in Stores,
    /// Whose item an entry has is not compared.
    OtherItemActive in Stores,
    /// Any kind but Unavailable counts as a condition.
    OtherKindActive in Stores,
    /// A level above Fault counts as active.
    LevelThreeActive in Stores,
    /// The level is told by its two low bits.
    LevelCutShort in Stores,
    /// Used is told by the packed word.
    UsedByPacked in Stores,
    /// The entries of items of other categories are tested too.
    OtherFormTested in Stores,
    /// The entries of items that are not selected are tested too.
    UnselectedFormTested in Stores,
    /// Overwriting lets a ninth code go.
    NinthLostOverwriting in Stores,
    /// `at` lets a ninth code go.
    NinthLostAt in Stores,
    /// What clears all makes nine codes good again.
    NineMended in Stores,
    /// `at` refuses nine codes of an item that is not selected.
    NineUnselectedRefused in Stores,

    // Deliveries.
    /// A refused record ends the delivery; the words of the rest stay.
    BatchStopsAtRefusal in Both,
    /// A missing time becomes the first record's rather than the host's.
    BatchTimeOfFirst in Both,
    /// The host's time stands for the times given too.
    BatchHostForAll in Both,
    /// Same gets no word, so that the later ones move up.
    BatchSameLeftOut in Both,
    /// Same is looked for in the latest values as they stood ahead of the delivery.
    SameBeforeBatch in Stores,
    /// 257 records are accepted.
    BatchOf257 in Both,
    /// An empty list is refused.
    EmptyBatchRefused in Both,
    /// An empty list is accepted without a look at model and head.
    EmptyBatchUnchecked in Stores,
    /// The number of records and the space are looked at before the model.
    BatchBeforeModel in Stores,
    /// The space is looked at before the number of records.
    SpaceBeforeBatch in Both,
    /// A buffer with exactly a word for each record is refused.
    ExactAnswersRefused in Both,
    /// A refused delivery writes its refusal into the answer words.
    RefusedBatchWrites in Both,
    /// A refused delivery observes the records that there are words for.
    RefusedBatchObserves in Both,
    /// The answer words behind the last record's are cleared.
    AnswerTailCleared in Both,
    /// The count is that of the records recorded.
    BatchCountsRecorded in Both,
    /// A record that meets a bad ring entry refuses the whole delivery.
    BatchRefusedByEntry in Stores,
    /// A record that meets a bad ring entry makes it good for the next one.
    BadEntryMended in Stores,

    // Lines: the form.
    /// A carriage return behind a line is stripped.
    CarriageReturnStripped in Both,
    /// A blank behind a line is stripped.
    BlankStripped in Both,
    /// A third bar ends the value, whatever stands behind it.
    ThirdBarTaken in Both,
    /// Eleven digits are read.
    ElevenDigitsTaken in Both,
    /// A leading zero does not count among the ten digits.
    LineZeroUncounted in Both,
    /// Words are read in lower case too.
    LowerCaseTaken in Both,
    /// `NORMAL` without a code is Normal 0.
    BareNormalTaken in Both,
    /// `+5` is read.
    PlusTaken in Both,
    /// `.5` is read.
    NothingBeforePointTaken in Both,
    /// `5.` is read.
    NothingBehindPointTaken in Both,
    /// A fourth digit behind the point is overlooked.
    FourDecimalsTaken in Both,

    // Lines: stamps.
    /// Each month has the length of the next.
    MonthLengthsShifted in Both,
    /// Every year has a February 29.
    LeapDayEveryYear in Both,
    /// 2000 has no February 29, as other years divisible by a hundred.
    NoLeapDayIn2000 in Both,
    /// 2100 is read.
    YearBehindLastTaken in Both,
    /// Day 0 is the one before the first.
    DayZeroTaken in Both,
    /// Hour 24 is read.
    HourTwentyFourTaken in Both,
    /// Second 60 is read.
    SecondSixtyTaken in Both,
    /// Behind an empty stamp the time stays 0: the host's is lost.
    EmptyStampKept in Both,
    /// Behind a stamp that gives 0 the time stays 0.
    EpochStampKept in Both,

    // Lines: values.
    /// The item is cut to 32 bits.
    LineItemCut in Both,
    /// The point is overlooked: `-0.5` is -5000.
    PointOverlooked in Both,
    /// Digits behind the point are thousandths, however few: `-0.5` is -5.
    ThousandthsUnscaled in Both,
    /// Zeros right behind the point are dropped: `5.05` is 5500.
    ZerosBehindPointDropped in Both,
    /// The sign is the whole part's, and -0 has none: `-0.5` is 500.
    SignLostBelowOne in Both,
    /// The sign is the whole part's alone: `-1.5` is -500.
    SignOfWholeOnly in Both,
    /// A sample that is too large wraps.
    SampleWraps in Both,
    /// The lowest sample is refused.
    LowestSampleRefused in Both,
    /// `-0` is an event's code.
    NegativeZeroCode in Both,
    /// `5.0` is an event's code.
    PointedCode in Both,
    /// A code that is too large wraps.
    CodeWraps in Both,
    /// A native code that is too large spills into the level.
    WideCodeSpills in Both,
    /// Normal loses its code.
    NormalLosesCode in Both,

    // Lines: the order of refusals.
    /// The stamp is looked at before the form of item and value.
    StampBeforeForm in Both,
    /// The item is looked at before the value's form.
    ItemBeforeForm in Both,
    /// The item is looked at before the stamp.
    ItemBeforeStamp in Both,
    /// The kind is looked at before the stamp.
    KindBeforeStamp in Both,
    /// A value of another category's form is malformed.
    OtherFormMalformed in Both,
    /// The form is looked at before the model.
    LineBeforeModel in Stores,
    /// The form is looked at before the head.
    LineBeforeHead in Stores,

    // Lines: the writer.
    /// Time 0 has a stamp.
    StampForTimeZero in Both,
    /// A stamp has no thousandths.
    StampToTheSecond in Both,
    /// An item of one digit gets a leading zero.
    ItemPadded in Both,
    /// Zeros behind a sample's point stay: `5.500`.
    TrailingZerosKept in Both,
    /// A whole sample has a point: `5.0`.
    NeedlessPoint in Both,
    /// Zeros right behind a sample's point are lost: 5050 is `5.5`.
    WrittenZerosLost in Both,
    /// -500 is `0.5`.
    WrittenSignLost in Both,
    /// Normal 0 is `NORMAL`.
    NormalWithoutCode in Both,
    /// The last millisecond of 2099 is refused.
    LastTimeRefused in Both,
    /// The millisecond behind it is written.
    TimeBehindLastWritten in Both,
    /// The time is looked at before the kind.
    StampBeforeKind in Both,
    /// The space is looked at before the time.
    SpaceBeforeStamp in Both,
    /// A buffer with exactly the line's bytes is refused.
    ExactLineRefused in Both,
    /// The bytes behind the line are cleared.
    LineTailCleared in Both,
    /// A refused line writes a byte.
    RefusedLineWrites in Both,
    /// A short buffer gets what it has room for, and is refused.
    ShortRoomFilled in Both,

    // Documents: the reply.
    /// The sum 4 + 3k wraps.
    RowCountWraps in Both,
    /// Rows that the reply has no words for are left out.
    CutReplyTaken in Both,
    /// Words behind the rows are refused.
    WordsBehindRefused in Both,
    /// Words behind the rows are tested as times.
    TimesBehindTested in Both,
    /// The words first, last and next have to go together.
    SizesTested in Both,
    /// Item m is taken for the last one.
    ItemBehindLastTaken in Both,
    /// The item of a row is its low eight bits only.
    RowItemCut in Both,
    /// The kind of a row is its low two bits only.
    RowKindCut in Both,
    /// Kind 0 is Unavailable, whatever its low word is.
    UnavailableLowTaken in Both,
    /// Level 3 is a Fault.
    LevelThreeTaken in Both,
    /// A value of another category's kind is written.
    OtherKindWritten in Both,
    /// An event of the asset-change item is refused, as observe refuses it.
    AssetRowRefused in Both,
    /// A creationTime after 2099 is written.
    CreationTimeUntested in Both,
    /// A row's time after 2099 is written.
    RowTimeUntested in Both,

    // Documents: the order of refusals.
    /// The reply is looked at before the model.
    ReplyBeforeModel in Stores,
    /// The times are looked at before the packed values.
    StampBeforeRows in Both,
    /// The first row with something wrong decides, by its packed value or its time.
    FirstWrongRowDecides in Both,
    /// The space is looked at before the times.
    RoomBeforeStamp in Both,
    /// A buffer that no document has room in is refused before the reply is looked at.
    RoomBeforeReply in Both,

    // Documents: components and groups.
    /// A row stands under its component's parent.
    RowUnderParent in Both,
    /// Components of one type are written as one.
    EqualTypesMerged in Both,
    /// Components come in the order in which the reply first has them.
    ComponentsByFirstRow in Both,
    /// A component without rows is written.
    EmptyComponentKept in Both,
    /// A group without rows is written.
    EmptyGroupKept in Both,
    /// Condition comes before Events.
    ConditionBeforeEvents in Both,
    /// A group ends where a row of another one stands between two of its own, and is opened again.
    GroupsReopened in Both,
    /// The groups of a component are closed at its end.
    GroupsClosedLate in Both,
    /// Discrete events stand under Samples.
    DiscreteUnderSamples in Both,
    /// Asset changes stand under Condition.
    AssetRowUnderCondition in Both,
    /// The rows of a group are put in the order of their numbers.
    RowsOrderedByNumber in Both,
    /// A row that equals an earlier one is left out.
    EqualRowsWrittenOnce in Both,
    /// The device has the name of the first row's component.
    DeviceOfFirstRow in Both,
    /// Without rows the device is written all the same.
    EmptyDeviceKept in Both,
    /// Without rows Streams is written as two tags.
    EmptyStreamsInFull in Both,

    // Documents: rows.
    /// A row has the sequence of the next one.
    SequenceOfNextRow in Both,
    /// Time 0 has an empty stamp, as in a line.
    EmptyStampInDocument in Both,
    /// An unavailable condition is written as other items are, by its type.
    UnavailableByType in Both,
    /// An unavailable condition has a native code.
    NativeCodeForUnavailable in Both,
    /// Native code 0 is left out.
    NativeCodeZeroLeftOut in Both,
    /// Normal has no native code.
    NormalCodeLeftOut in Both,
    /// A condition's type is written in Pascal case.
    ConditionTypeInPascal in Both,

    // Documents: names.
    /// `_` stays in an element's name.
    UnderscoresKept in Both,
    /// Only the first letter of a word changes its case.
    RestOfWordKept in Both,
    /// A letter behind a digit is upper case: `x9Y` is `X9Y`.
    RaisedBehindDigit in Both,
    /// No `T` before a digit.
    DigitWithoutT in Both,
    /// No `T` where nothing is left of a type.
    NothingWithoutT in Both,
    /// A component's type is written in Pascal case.
    ComponentInPascal in Both,
    /// componentId is made of the component's type.
    ComponentIdByType in Both,
    /// componentId counts from 1.
    ComponentIdFromOne in Both,

    // Documents: the header.
    /// firstSequence and lastSequence are exchanged.
    FirstAndLastExchanged in Both,
    /// nextSequence is one more than lastSequence.
    NextFromLast in Both,
    /// instanceId and bufferSize are exchanged.
    SizeAndInstanceExchanged in Both,
    /// Numbers from 2^63 on are written as negative ones.
    NumbersSigned in Both,

    // Documents: the buffer.
    /// A buffer with exactly the document's bytes is refused.
    ExactDocumentRefused in Both,
    /// The bytes behind the document are cleared.
    DocumentTailCleared in Both,
    /// A refused document writes a byte.
    RefusedDocumentWrites in Both,
    /// A short buffer gets what it has room for, and is refused.
    ShortDocumentCut in Both,
    /// No line feed ends the last line.
    LastLineFeedLost in Both,

    // Assets.
    /// `?` passes in an id.
    QuestionMarkInIds in Both,
    /// `:` is refused in an id, as `;` is.
    ColonRefusedInIds in Both,
    /// Ids are compared up to the length given.
    IdPrefix in Both,
    /// The newest asset makes way rather than the oldest.
    NewestEvicted in Both,
    /// A replaced asset keeps its cell.
    ReplacedKeepsCell in Both,
    /// A replaced asset takes another's place with it when the cells are full.
    ReplacedEvictsToo in Both,
    /// No event where its code equals the latest one.
    EqualEventDropped in Both,
    /// The event's code is the cell that held the asset before.
    EventCodeBeforeMove in Both,
    /// The asset is stored although its event finds no number.
    StoredThoughSpent in Stores,
    /// What stood behind a shorter body stays.
    StaleBodyBytes in Stores,
    /// `/assets` begins with the oldest.
    AssetsOldestFirst in Both,
    /// A repeated id is answered once.
    RepeatedIdsDropped in Both,
    /// A body of 510 bytes is refused.
    LongestBodyRefused in Both,
    /// A body is found by an id with a zero byte behind it.
    BodyByPaddedId in Stores,

    // Replies.
    /// A reply buffer with exactly its words is refused.
    ExactSpaceRefused in Both,
    /// The words behind the reply are cleared.
    TailCleared in Both,
    /// A refused request clears the sizes.
    RefusalClearsSizes in Both,

    // Damaged stores.
    /// The head's sum B + m - 1 wraps.
    HeadSumWraps in Stores,
    /// The head's m is not compared with the model's.
    ItemsUncompared in Stores,
    /// The number of used cells is not compared with the number of cells.
    UsedUncompared in Stores,
    /// Store lengths may be longer than needed.
    LongerStores in Stores,
    /// The considered ring entries are not tested.
    RingUntested in Stores,
    /// The entry to be overwritten is not tested.
    OverwrittenUntested in Stores,
    /// An unused ring place is tested before it is written.
    UnusedPlaceTested in Stores,
    /// The item of a packed value is its low eight bits only.
    ItemCutShort in Stores,
    /// The ring's refusal comes after the space.
    SpaceBeforeRing in Stores,
    /// A stored asset length is looked at before all ids are.
    LengthBeforeIds in Stores,
    /// A stored asset length of 511 or 512 passes.
    LengthUntested in Stores,
    /// Of two cells with one id the higher is meant.
    HigherCellMeant in Stores,
    /// `at` tests a checkpoint's number against `at`.
    CheckpointCompared in Stores,
}
