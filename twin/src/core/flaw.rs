//! The switches that make a deliberately wrong twin, for showing that the comparison can fail. At each
//! stand the rules that it breaks, by their numbers in `docs/RULES.md`, and how.

#[derive(Clone, Copy, Debug, PartialEq, Eq)]
pub enum Flaw {
    /// The right twin.
    None,
    /// D8, M1: ticksWhileRunning is counted up in the VM's own field.
    GuestClock,
    /// D10, M2: a spare tick is taken off the VM's next slot.
    SpareChargedToSlice,
    /// D10, D15, M2: the slot ends when its VM does.
    StopMovesTable,
    /// D12, M3: the other pending bits do not stay.
    ClearsAllPending,
    /// D11, M3: the lowest number in place of the highest.
    LowestNumberFirst,
    /// D14, M4: the entries of a VM that ends stay in the queue.
    StoppedStaysQueued,
    /// D13, D17, M5: 11 does not wait for the VM's own moment.
    ShutdownAtOnce,
    /// R2: a refused Tick makes the VMs older.
    RefusedTickAges,
    /// D18: the entries of a VM that restarts stay in the queue.
    RestartKeepsQueue,
    /// I1: numbers of several bytes are written high byte first.
    WriterSwapsBytes,
    /// I8: fault 28 with the offset of the second byte behind the end.
    Fault28OffByOne,
    /// E12, D27: an argument over 31 is shortened, and no error.
    InjectMasksArgument,
    /// D4: a VM that is not ready does not age.
    OnlyReadyAge,
    /// D13, D26: no delivery with service 1.
    ReturnDoesNotDeliver,
    /// D13, D27: no delivery with service 2.
    InjectWaits,
    /// D11, D27: the injected number in place of the highest.
    InjectItsOwn,
    /// R1, R4, D29: the queue is full one entry too late.
    QueueTakesOneMore,
    /// D7: the newest entry in place of the oldest.
    NewestEntryFirst,
    /// D24: a Call that ends its VM stores no next address.
    EndingCallKeepsAddress,
    /// D8, D9: VMs that do not run get their bits of psIntGenerateOnTick too.
    GenerateForEveryone,
    /// D19: the running VM does not stay so at its Restart.
    RestartStopsRunning,
    /// I9: 20 for the body comes before 21.
    BodyBeforeKind,
    /// I9: 23 comes before 26.
    SlotNameBeforeCount,
    /// A8, M6: the entries of other VMs are told as removed.
    RemovedIsWholeQueue,
    /// A8, M6: told is what is left to the VM, not what it had.
    RemovedIsWhatIsLeft,
    /// A8, D18, M6: a Restart tells of no entries.
    RestartTellsNone,
    /// A8: an entry that is served is told as removed.
    ServedIsRemoved,
    /// A8: a Call for a service that there is not tells of no entries.
    UnknownServiceTellsNone,
    /// I9: 33 comes before 35.
    PermissionBeforeCount,
    /// I9: 34 comes before 33.
    RangeBeforePermission,
    /// I9: 35 comes before 32, once every VM of the image holds eight regions.
    CountBeforeHolder,
    /// I9: 36 comes before 34, as if a region that starts after its last address could overlap.
    OverlapBeforeRange,
    /// H2, I8: a region of the VM behind the last one is taken.
    HolderBehindLastAccepted,
    /// H5, I8: a ninth region is taken.
    NinthRegionAccepted,
    /// H3, I8: permission 0 is taken.
    PermissionZeroAccepted,
    /// H3, I8: permission 4 is taken.
    PermissionFourAccepted,
    /// H4, I8: a region of one byte starts after its last address.
    SingleByteRefused,
    /// H4, H6: the last address is not in the region.
    LastAddressExcluded,
    /// H6, I8: 36 only where the later region may be written.
    OnlyLaterIsWritten,
    /// H6, I8: 36 only where the earlier region may be written.
    OnlyEarlierIsWritten,
    /// H6, I8: 36 only where both may be written.
    BothAreWritten,
    /// H6, H7: 36 where none may be written.
    ReadOverlapRefused,
    /// H6: regions that share one byte do not overlap.
    SharedByteIsApart,
    /// H6: regions that adjoin overlap.
    AdjoiningOverlaps,
    /// H6, I8: regions with the same start have the same range.
    EqualStartsAreEqualRanges,
    /// H6, I8: regions with the same last address have the same range.
    EqualLastsAreEqualRanges,
    /// H6, I8: the same range is a clash too.
    SharedRangeRefused,
    /// H7: regions of one VM clash.
    OwnOverlapRefused,
    /// I8: 36 is looked for at the region straight before only.
    OnlyNeighbourIsAsked,
    /// I6, I15: a region behind a slot is taken.
    RegionBehindSlotAccepted,
    /// I6, I15: a region before the last VM record is taken.
    RegionBeforeVmAccepted,
    /// I15: there are no regions: their kind is unknown.
    RegionKindUnknown,
    /// I6, I15: the image written again has no regions.
    WriterLeavesRegionsOut,
    /// H1: the image written again has the regions by their VMs.
    WriterSortsRegions,
    /// I6, I15: the image written again has the regions behind the slots.
    WriterPutsRegionsLast,
    /// H6: a configuration is not legal where VMs share a range.
    LegalForgetsSharing,
    /// H7: a configuration is not legal where regions of one VM overlap.
    LegalForgetsOwnOverlap,
    /// H3: a configuration is not legal where a region may be executed only.
    LegalForgetsExecute,
    /// H5: a configuration is not legal where all VMs together hold more than eight regions.
    LegalCountsAllRegions,
    /// T10, D20: an Extra raises no count.
    ExtraCountsNone,
    /// T10, D29: service 4 raises no count.
    ServiceFourCountsNone,
    /// T10, D20: an Extra raises the count of the VM that runs, not of the one that it names.
    ExtraCountsRunning,
    /// T10, D20: an Extra raises the count of the VM whose entry is the oldest.
    ExtraCountsOldest,
    /// T10, D29: service 4 raises the count though the queue is full.
    FullCallCounts,
    /// T10, R2: an Extra that is refused for a full queue raises the count.
    RefusedExtraCounts,
    /// T10: a count goes no further than 1.
    CountIsFlag,
    /// T10: a count goes round at 16.
    CountGoesRound,
    /// T10, D7, M7: a spare tick leaves the count of the VM whose entry it takes.
    ServedKeepsCount,
    /// T10, D7, M7: a spare tick lowers the count of the VM that ran before.
    ServedLowersFormer,
    /// T10, D7: a spare tick takes the whole count of its VM.
    ServedClearsCount,
    /// T10, D7: a spare tick lowers the count of the VM whose entry is the newest.
    ServedLowersNewest,
    /// T10, D7: a spare tick lowers every count.
    ServedLowersAll,
    /// T10, D6: a tick in a named slot lowers the count of its VM.
    NamedTickLowers,
    /// T10, D14, M7: a Stop leaves the count.
    StopKeepsCount,
    /// T10, D18, M7: a Restart leaves the count.
    RestartKeepsCount,
    /// T10, D18, D19: a Restart leaves the count of the VM that runs.
    RunningRestartKeepsCount,
    /// T10, D23, M7: a Fault leaves the count.
    FaultKeepsCount,
    /// T10, D28, M7: service 3 leaves the count.
    ServiceThreeKeepsCount,
    /// T10, D27, M7: service 2 with an argument over 31 leaves the count.
    BadInjectKeepsCount,
    /// T10, D30, M7: a Call for a service that there is not leaves the count.
    UnknownServiceKeepsCount,
    /// T10, D14, D18: a removal lowers the count by 1 only.
    RemovalLowersByOne,
    /// T10, D14, D18: a removal makes all eight counts 0.
    RemovalClearsAll,
    /// T10, D14, D18, M7: a removal clears the count of the VM that runs, not that of its own VM.
    RemovalClearsRunning,
    /// T10, D14, D18: a removal clears the counts of the VMs behind its own too.
    RemovalClearsLaterVms,
    /// T6, T10, D1: Start makes the count of each VM 1.
    StartCountsOne,
    /// T10, D17: a Shutdown clears the count, though the entries stay.
    ShutdownClearsCount,
    /// N9: the text has seven counts.
    TextLeavesLastCountOut,
    /// N9: the text has the counts of the configuration's VMs only.
    TextCountsVmsOfImage,
    /// N9: the counts stand before the queue.
    TextCountsBeforeQueue,
    /// N9: the counts stand behind the VM records.
    TextCountsBehindVms,
    /// N9: the counts are hexadecimal.
    TextCountsInHex,
    /// D34: the destination is checked before the source.
    CopyDestinationFirst,
    /// D34: the source is checked before the length.
    CopySourceBeforeLength,
    /// D34: all lengths are checked before any address.
    CopyLengthsFirst,
    /// D34: all sources are checked before any destination.
    CopySourcesFirst,
    /// D34, M8: the source has to be written and the destination to be read.
    CopyWaysSwapped,
    /// D34, M8: the source has to be written too.
    CopyWritesSource,
    /// D34, M8: the destination has only to be read.
    CopyReadsDestination,
    /// D34: the regions are not asked.
    CopyAccessIgnored,
    /// D34: VM 0 is asked for, whoever runs.
    CopyAsksVmZero,
    /// D34, M8: the extents past the count are checked.
    CopyLooksPastCount,
    /// D34: only the first extent is checked.
    CopyChecksFirstOnly,
    /// D34: the last of several extents is not checked.
    CopyLastUnchecked,
    /// S10, D34: an extent of 256 bytes is too long.
    CopyLength255IsMost,
    /// S10, D34: an extent of 257 bytes is not too long.
    CopyLength257Taken,
    /// S10, D33: a count of 8 is too high.
    CopyCountSevenIsMost,
    /// S10, D33: a count of 9 is not too high.
    CopyCountNineTaken,
    /// D34: the addresses of an extent without bytes are checked.
    CopyLengthZeroIsChecked,
    /// A5, D34: an extent that is too long has code 3.
    CopyLengthIsCode3,
    /// A5, D34: the data of code 7 is the source.
    CopyLengthTellsSource,
    /// A5, D34: the data is the source where the destination fails.
    CopyDestinationTellsSource,
    /// D32, D34: the window is not asked.
    WindowIgnored,
    /// D32, D34: the source may lie outside the window.
    WindowOfSourceIgnored,
    /// D32, D34: the destination may lie outside the window.
    WindowOfDestinationIgnored,
    /// D32: a range may begin below the window.
    WindowBaseIgnored,
    /// D32: only the first byte has to lie in the window.
    WindowByFirstByte,
    /// D32: the window has one byte more at its front.
    WindowBeginsEarly,
    /// D32: the first byte of the window is not in it.
    WindowBeginsLate,
    /// D32: the window has one byte more at its end.
    WindowEndsLate,
    /// D32: the last byte of the window is not in it.
    WindowEndsEarly,
    /// D32, M8: address and length are added modulo 2^32 for the window.
    WindowWraps,
    /// H10, D32, M8: address and length are added modulo 2^32 for the window and the regions.
    SumsWrap,
    /// D31: a Copy that ends its VM stores no next address.
    EndingCopyKeepsAddress,
    /// D31, D36: a Copy that is done stores no next address.
    DoneCopyKeepsAddress,
    /// D13, D36: a Copy delivers.
    CopyDelivers,
    /// D14, D34: the entries of a VM that a Copy ends stay in the queue.
    CopyKeepsEntries,
    /// A8: a Copy that ends its VM tells of no entries.
    CopyTellsNone,
    /// T10, D34, M7: a Copy that ends its VM leaves the count.
    CopyKeepsCount,
    /// D15, D34: a VM that a Copy ends still runs.
    CopyKeepsRunning,
    /// D23, D34: a VM that a Copy ends is stopped, not in error.
    CopyStopsItsVm,
    /// A6: a Copy that ends its VM has result 1.
    CopyAnswersOne,
    /// R1: a Copy before Start is not refused.
    CopyBeforeStartTaken,
    /// R1: a Copy while no VM runs is not refused.
    CopyByNobodyTaken,
    /// D30: a Call for service 5 is no error.
    ServiceFiveIsDone,
    /// E13, L4: kind 0x19 is read as a Copy.
    KindNineteenIsCopy,
    /// E13: the record of a Copy ends behind the extents in use.
    CopyRecordByCount,
    /// E13: the destination stands before the source.
    CopyDestinationReadFirst,
    /// N14: a log runs on the core that the one before it left.
    CarriesState,
    /// N14, N15: the ticks of the logs before it count for a log's place in the table.
    CarriesPlace,
    /// N13: a log that does not open does not end the list.
    SkipsMissingLog,
    /// N20: a log without a byte is none.
    EmptyLogEndsList,
    /// N19: a record that cannot be read ends the logs behind it too.
    CutEndsList,
    /// N19: what came before a record that cannot be read does not count.
    CutLogAddsNothing,
    /// N20: a log over 60,000 bytes ends the list.
    LongLogEndsList,
    /// N20: a log over 60,000 bytes adds its ticks.
    LongLogIsRun,
    /// N20: a log of 60,000 bytes adds nothing.
    LargestLogIsTooLong,
    /// N13: there is one log more than sixteen.
    ReadsSeventeenLogs,
    /// N17: a missed tick is not idle.
    IdleWithoutMissed,
    /// N15: refused ticks count.
    RefusedTicksCount,
    /// N15: refused ticks move the place in the table.
    PlaceCountsRefused,
    /// N16: a spare tick is a tick of the table.
    SpareAsTable,
    /// N17: a missed tick is a tick of the table.
    MissedAsTable,
    /// N17: an idle tick in a spare slot is missed by some VM.
    SpareIdleIsMissed,
    /// N16: a VM that ends within a tick has not run it.
    StoppedHasNotRun,
    /// N15: each slot is one tick of the table, whatever its duration.
    TableBySlots,
    /// N18: the last VM has no line.
    NoRowForLastVm,
    /// H8: memory that may be read may be executed.
    ReadAllowsExecute,
    /// H8: memory that may be read may be written.
    ReadAllowsWrite,
    /// H8: memory that may be executed may be read.
    ExecuteAllowsRead,
    /// H8: memory that may be written cannot be read.
    WriteForbidsRead,
    /// H9: regions of other VMs count.
    AnyHolderGrants,
    /// H9: a range lies in one region or in none.
    OneRegionCovers,
    /// H9: regions that adjoin do not go on in each other, those that overlap do.
    AdjoiningIsGap,
    /// H9: a byte between two regions belongs to them.
    GapIsClosed,
    /// H9: a region inside a longer one ends that too.
    InnerRegionShortens,
    /// H9: only the first byte counts.
    FirstByteCounts,
    /// H9: only the first and the last byte count.
    EndsCount,
    /// H4, H9: the last address is not granted.
    LastByteLeftOut,
    /// H10: a range past the end of the space goes on at 0.
    RangeWraps,
    /// H10: of a range past the end only the bytes before it count.
    RangeIsCutOff,
    /// H10: a range up to the end of the space goes past it.
    EndOfSpaceIsPast,
    /// H10: a length of 0 is no.
    LengthZeroIsNo,
    /// H10: a length of 0 is yes for a VM that there is not.
    LengthZeroBeforeVm,
    /// H10: a length of 0 is yes for a way that there is not.
    LengthZeroBeforeWay,
    /// H10: a length of 0 is yes only at a byte that is granted.
    LengthZeroNeedsRegion,
    /// H10: the VM behind the last one is the last.
    VmBehindLastIsLast,
    /// H8, H10: a way that there is not is a read.
    UnknownWayReads,
    /// H11: without regions every byte is granted.
    NoRegionsGrantAll,
    /// N22: the numbers of a query stand high byte first.
    QueryHighByteFirst,
    /// N22: the way stands before the VM.
    QueryWayFirst,
    /// N24: a cut record has the number of the lines before it.
    CutCountsFromZero,
    /// N24: a cut record prints nothing.
    CutIsDropped,
    /// N24: the bytes that a cut record lacks are 0.
    CutIsFilled,
    /// N25: too many queries are noticed before a refused image.
    LongBeforeImage,
    /// N25: 60,000 bytes of queries are too many.
    LargestIsLong,
    /// N25: more than 60,000 bytes of queries are answered.
    LongIsAnswered,
    /// N25: the lines before the limit are printed, then `long`.
    LongAfterAnswers,
    /// N5, N25: a refused image answers every query with no.
    RefusedImageAnswersNo,
    /// D35, M8: an extent is copied before the next one is checked.
    CopiesBeforeAllChecked,
    /// D36, M8: an extent that overlaps itself is copied byte by byte from the front.
    CopiesForwards,
    /// D36: an extent that overlaps itself is copied byte by byte from the end.
    CopiesBackwards,
    /// D36: each extent takes the bytes as they stood before the whole Copy.
    CopiesFromBeforeAll,
    /// D36: the last extent is copied first.
    CopiesLastExtentFirst,
    /// E13, D36: the bytes go from the destination to the source.
    CopiesOtherWay,
    /// D34, D36: the extents past the count are copied too.
    CopiesPastCount,
    /// D36: the last byte of an extent is not copied.
    CopiesOneByteLess,
    /// D36: the source does not stay.
    CopiesAndClears,
    /// N26: the window is zero at first.
    MemoryFileIgnored,
    /// N26: a memory.bin over 16,384 bytes is as one without a byte.
    LongMemoryIgnored,
    /// N27: rows of zeros have a line.
    WindowKeepsZeroRows,
    /// N27: the line of a row has its offset in the window, not its address.
    WindowRowByOffset,
    /// N27: the bytes have large letters.
    WindowDigitsLarge,
    /// N27: a row has 16 bytes.
    WindowRowsOf16,
    /// N27: the last row has no line.
    WindowLastRowMissing,
    /// N27: the window stands before the lines of the run.
    WindowBeforeLines,
    /// N28: the window stands before the `cut` line.
    WindowBeforeCut,
    /// N28: no window is printed behind a `cut` line.
    CutHidesWindow,
    /// N28: behind a `cut` line the window is printed as it was at first.
    CutShowsFirstWindow,
    /// N28: the window is printed behind `long`.
    LongShowsWindow,
    /// N28: the window is printed behind the line of a refused image.
    RefusedImageShowsWindow,
}

/// Wrong twins, each with what it does wrong.
pub type Wrong = [(Flaw, &'static str)];

impl Flaw {
    /// The wrong twin of this name among some of them.
    pub fn named(wrong: &Wrong, name: &str) -> Result<Flaw, String> {
        let found = wrong.iter().find(|(flaw, _)| format!("{flaw:?}") == name);
        found.map(|(flaw, _)| *flaw).ok_or(format!("there is no wrong twin '{name}'"))
    }
}
