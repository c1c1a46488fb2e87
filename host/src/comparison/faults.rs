//! The faults that are planted. A run of the comparison must report each of them: that is the test of the comparison.

/// A planted fault.
#[derive(Debug, Clone, Copy, PartialEq, Eq)]
pub enum Fault {
    /// The ordinary sets are read for a keycap.
    KeycapRule,
    /// The end of the first finding is off by one byte.
    FindingSpan,
    /// The end of the first item is off by one byte.
    ItemSpan,
    /// The tags of every item are said to be complete.
    TagReport,
    /// Tags are said to be complete where the last tag of each tag modification is E007F.
    LastTag,
    /// The first count of the first finding is off by one.
    InventedCount,
    /// The end of the first finding is off by one UTF-16 unit.
    FindingUnits,
    /// The end of the first item is off by one character.
    ItemCharacters,
    /// The byte after the result is changed.
    ByteAfter,
    /// A refusal writes a byte.
    RefusalWrites,
    /// A text that needs no change is written.
    UnchangedWrites,
    /// A text that needs no change gives 8.
    UnchangedTooShort,
    /// The text is tested before the policy.
    TextBeforePolicy,
    /// The decision bytes are tested before their number.
    BytesBeforeNumber,
    /// The room is tested before the offset.
    RoomBeforeOffset,
    /// The length wanted is one too long.
    WantedLength,
    /// The places wanted are one too many.
    WantedPlaces,
    /// The well-formed beginning is one byte too long.
    Beginning,
    /// A policy with an unused bit is taken, and the bit cleared.
    UnusedBit,
    /// A policy of another version is taken.
    AnyVersion,
    /// The version of a policy is tested after its unused bits.
    VersionAfterBits,
    /// The version of a policy is tested before its length.
    VersionBeforeLength,
    /// The version of the tables is the next minor one.
    NextVersion,
    /// The policy of a sheet has no version.
    SheetWithoutVersion,
    /// A text of the longest length is refused.
    LimitTooLow,
    /// A text longer by one byte is taken.
    LimitTooHigh,
    /// The default policy has one bit more or less.
    DefaultPolicy,
    /// There is an entry after the last one.
    FurtherEntry,
    /// Every text is refused.
    RefusesAll,
    /// No text is ever changed.
    NeverChanges,
    /// A result is said to be written, and is not.
    WritesNothing,
    /// The last item is not told.
    EndsEarly,
    /// No offset has a finding.
    MendsNothing,
    /// The first mending formats the whole text, and later ones copy it.
    MendsAllAtOnce,
    /// A text that a mending has just written has no finding.
    ForgetsFindings,
    /// Each byte of a bad place is replaced.
    ReplacesEachByte,
    /// Bad places that follow each other are one.
    JoinsBadPlaces,
    /// A bad place takes the ASCII byte after it.
    SwallowsNextByte,
    /// A bad place at the end of the text is lost.
    LosesCutEnd,
    /// An output shorter than three times the text is refused.
    WantsThreeTimes,
    /// The number of replacements is one too many.
    ReplacementNumber,
    /// A text without a bad place is not written.
    WholeUnwritten,
    /// Limit 1 is tested on the repaired text.
    LimitOnRepaired,
    /// Each piece of a thread is formatted as a text of its own.
    PiecesAlone,
    /// The offset of an ill-formed place is counted from the piece's start.
    OffsetInPiece,
    /// A refused call on a feed changes the feed.
    RefusedFeedChanges,
    /// A refused call on a feed writes a byte.
    RefusedPieceWrites,
    /// After an ill-formed piece every piece is refused.
    RefusalSticks,
    /// The room of a piece is tested by what is written.
    RoomByNeed,
    /// The room of a piece is tested before its form.
    RoomBeforeForm,
    /// Limit 1 does not count the bytes of an unfinished character.
    LimitWithoutUnfinished,
    /// A thread may end inside a character.
    EndsInsideCharacter,
    /// A piece is taken after the end.
    TakesAfterEnd,
    /// The totals are without the last base, which is not written yet.
    TotalsWithoutHeld,
    /// After the end the totals are zeros.
    NoTotalsAfterEnd,
    /// A change of the policy judges the held base anew.
    JudgesHeldAnew,
    /// A change of the policy is taken after the end.
    ChangesAfterEnd,
    /// A change tests the version after the unused bits.
    ChangeVersionLate,
    /// A code point of three digits is taken.
    ThreeDigits,
    /// A code point of seven digits is taken, if the first is 0.
    SeventhDigit,
    /// Digits in lower case are taken.
    SmallDigits,
    /// Blanks are passed over.
    Blanks,
    /// The last line need not be ended.
    LastEnd,
    /// What follows the four lines is passed over.
    FifthLine,
    /// A line may end with a comma.
    LastComma,
    /// A range that runs down is taken as the same range the other way round.
    RangeTurned,
    /// A range includes only its two ends.
    EndsAlone,
    /// Of a line only the last piece counts.
    LastPiece,
    /// The second and the third line of a sheet change places.
    LineOrder,
    /// The offset of what does not follow the form is one too great.
    SheetOffset,
    /// A range that runs down is refused at its start, also if nothing closes it.
    DownUnclosed,
    /// A range that runs down is refused only if the rest follows the form.
    DownAfterForm,
    /// A code point that is no entry is refused before the form of what follows.
    EntryBeforeForm,
    /// The end of a range that is no entry is told by the offset of the range.
    EndAtStart,
    /// The room is tested before the sheet.
    RoomBeforeSheet,
    /// The form of a sheet is tested before its length.
    SheetBeforeLimit,
    /// A refused sheet writes a byte.
    RefusedSheetWrites,
    /// The byte after the policy of a sheet is changed.
    ByteAfterPolicy,
    /// Neighbouring entries are written one by one.
    Unjoined,
    /// Only entries whose code points follow each other are joined.
    CodePointsJoined,
    /// A code point is written in at least four digits.
    FourDigits,
    /// The length wanted for a sheet is one too long.
    SheetLength,
    /// The sheet of a policy with an unused bit is written.
    SheetOfUnusedBit,
    /// A membership is carried over by its place, and not by its character.
    CarryByPlace,
    /// A new entry gets no membership.
    NewEntryEmpty,
    /// A carried policy keeps its version.
    CarriedVersion,
    /// The version of the old policy is tested.
    VersionTested,
    /// Two equal numbers of an old list are taken.
    EqualNumbers,
    /// Half a number at the end of an old list is passed over.
    HalfNumber,
    /// An unused bit of the old policy is taken, and cleared.
    OldUnusedBit,
    /// The unused bits of the old policy are tested before its list.
    BitsBeforeList,
    /// The room is tested before the old list.
    RoomBeforeList,
    /// A refused carrying over writes a byte.
    RefusedCarryWrites,
    /// The byte after a carried policy is changed.
    ByteAfterCarried,
    /// A base before 20E3 counts for the ordinary memberships.
    TipKeycapAsOrdinary,
    /// A base before a tag counts for its memberships.
    TipBeforeTag,
    /// The first two memberships of the list are exchanged.
    TipOrder,
    /// The last membership of the list is not told.
    TipMissing,
    /// The distance after a finding is counted from its end, and not from its last byte.
    LastByteAsEnd,
    /// A finding that ends where the stretch begins only shares a byte with it.
    TouchingShares,
    /// A finding that only shares a byte with the stretch is listed inside it.
    SharingAsInside,
    /// An empty stretch within a finding shares a byte with it.
    EmptyStretchShares,
    /// A stretch that ends before its start is turned round.
    StretchTurned,
    /// Of two tables that are short the second gives the number wanted.
    SharingTableFirst,
    /// The first table is written although the second is short.
    ShortTableWrites,
    /// Of two findings that are equally near the later is given.
    LaterOfEquals,
    /// An offset past the text is cut at its end.
    OffsetCut,
    /// A text without a finding gives 7 if the row is short.
    NoneNeedsRow,
    /// A refused filing writes a byte.
    RefusedFilingWrites,
    /// A filing that does not fit uses its number.
    RefusedFilingCharges,
    /// A filing that does not fit is accepted.
    NeverFull,
    /// What other clients took out of the common part would fit too.
    CommonOfEach,
    /// The client and the number are tested before the room.
    PlaceBeforeRoom,
    /// A text that needs no change is not charged.
    UnchangedFree,
    /// An empty message does not use its number.
    EmptyUsesNone,
    /// A charge within the reserve is refused where the common part cannot hold it.
    ReserveLent,
    /// A release gives back to the reserve first.
    ReserveFirst,
    /// A number that is not in use is released.
    ReleasesTwice,
    /// The sum of the reserves wraps at 2^64.
    ReservesWrap,
    /// A text is cut before 20E3.
    CutBeforeKeycap,
    /// A text is cut before a tag.
    CutBeforeTag,
    /// A text is cut inside a character.
    CutInsideCharacter,
    /// The offset itself is never the cut.
    CutBelowOffset,
    /// The end of the text is no cut.
    CutNotAtEnd,
    /// A text that is not well-formed is not cut.
    CutTestsForm,
}

/// The faults with their names.
pub const FAULTS: [(&str, Fault); 125] = [
    ("keycap-rule", Fault::KeycapRule),
    ("finding-span", Fault::FindingSpan),
    ("item-span", Fault::ItemSpan),
    ("tag-report", Fault::TagReport),
    ("last-tag", Fault::LastTag),
    ("invented-count", Fault::InventedCount),
    ("finding-units", Fault::FindingUnits),
    ("item-characters", Fault::ItemCharacters),
    ("byte-after", Fault::ByteAfter),
    ("refusal-writes", Fault::RefusalWrites),
    ("unchanged-writes", Fault::UnchangedWrites),
    ("unchanged-too-short", Fault::UnchangedTooShort),
    ("text-before-policy", Fault::TextBeforePolicy),
    ("bytes-before-number", Fault::BytesBeforeNumber),
    ("room-before-offset", Fault::RoomBeforeOffset),
    ("wanted-length", Fault::WantedLength),
    ("wanted-places", Fault::WantedPlaces),
    ("beginning", Fault::Beginning),
    ("unused-bit", Fault::UnusedBit),
    ("any-version", Fault::AnyVersion),
    ("version-after-bits", Fault::VersionAfterBits),
    ("version-before-length", Fault::VersionBeforeLength),
    ("next-version", Fault::NextVersion),
    ("sheet-without-version", Fault::SheetWithoutVersion),
    ("limit-too-low", Fault::LimitTooLow),
    ("limit-too-high", Fault::LimitTooHigh),
    ("default-policy", Fault::DefaultPolicy),
    ("further-entry", Fault::FurtherEntry),
    ("refuses-all", Fault::RefusesAll),
    ("never-changes", Fault::NeverChanges),
    ("writes-nothing", Fault::WritesNothing),
    ("ends-early", Fault::EndsEarly),
    ("mends-nothing", Fault::MendsNothing),
    ("mends-all-at-once", Fault::MendsAllAtOnce),
    ("forgets-findings", Fault::ForgetsFindings),
    ("replaces-each-byte", Fault::ReplacesEachByte),
    ("joins-bad-places", Fault::JoinsBadPlaces),
    ("swallows-next-byte", Fault::SwallowsNextByte),
    ("loses-cut-end", Fault::LosesCutEnd),
    ("wants-three-times", Fault::WantsThreeTimes),
    ("replacement-number", Fault::ReplacementNumber),
    ("whole-unwritten", Fault::WholeUnwritten),
    ("limit-on-repaired", Fault::LimitOnRepaired),
    ("pieces-alone", Fault::PiecesAlone),
    ("offset-in-piece", Fault::OffsetInPiece),
    ("refused-feed-changes", Fault::RefusedFeedChanges),
    ("refused-piece-writes", Fault::RefusedPieceWrites),
    ("refusal-sticks", Fault::RefusalSticks),
    ("room-by-need", Fault::RoomByNeed),
    ("room-before-form", Fault::RoomBeforeForm),
    ("limit-unfinished", Fault::LimitWithoutUnfinished),
    ("ends-inside", Fault::EndsInsideCharacter),
    ("takes-after-end", Fault::TakesAfterEnd),
    ("totals-without-held", Fault::TotalsWithoutHeld),
    ("no-totals-after-end", Fault::NoTotalsAfterEnd),
    ("judges-held-anew", Fault::JudgesHeldAnew),
    ("changes-after-end", Fault::ChangesAfterEnd),
    ("change-version-late", Fault::ChangeVersionLate),
    ("three-digits", Fault::ThreeDigits),
    ("seventh-digit", Fault::SeventhDigit),
    ("small-digits", Fault::SmallDigits),
    ("blanks", Fault::Blanks),
    ("last-end", Fault::LastEnd),
    ("fifth-line", Fault::FifthLine),
    ("last-comma", Fault::LastComma),
    ("range-turned", Fault::RangeTurned),
    ("ends-alone", Fault::EndsAlone),
    ("last-piece", Fault::LastPiece),
    ("line-order", Fault::LineOrder),
    ("sheet-offset", Fault::SheetOffset),
    ("down-unclosed", Fault::DownUnclosed),
    ("down-after-form", Fault::DownAfterForm),
    ("entry-before-form", Fault::EntryBeforeForm),
    ("end-at-start", Fault::EndAtStart),
    ("room-before-sheet", Fault::RoomBeforeSheet),
    ("sheet-before-limit", Fault::SheetBeforeLimit),
    ("refused-sheet-writes", Fault::RefusedSheetWrites),
    ("byte-after-policy", Fault::ByteAfterPolicy),
    ("unjoined", Fault::Unjoined),
    ("code-points-joined", Fault::CodePointsJoined),
    ("four-digits", Fault::FourDigits),
    ("sheet-length", Fault::SheetLength),
    ("sheet-of-unused-bit", Fault::SheetOfUnusedBit),
    ("carry-by-place", Fault::CarryByPlace),
    ("new-entry-empty", Fault::NewEntryEmpty),
    ("carried-version", Fault::CarriedVersion),
    ("version-tested", Fault::VersionTested),
    ("equal-numbers", Fault::EqualNumbers),
    ("half-number", Fault::HalfNumber),
    ("old-unused-bit", Fault::OldUnusedBit),
    ("bits-before-list", Fault::BitsBeforeList),
    ("room-before-list", Fault::RoomBeforeList),
    ("refused-carry-writes", Fault::RefusedCarryWrites),
    ("byte-after-carried", Fault::ByteAfterCarried),
    ("tip-keycap", Fault::TipKeycapAsOrdinary),
    ("tip-before-tag", Fault::TipBeforeTag),
    ("tip-order", Fault::TipOrder),
    ("tip-missing", Fault::TipMissing),
    ("last-byte-as-end", Fault::LastByteAsEnd),
    ("touching-shares", Fault::TouchingShares),
    ("sharing-as-inside", Fault::SharingAsInside),
    ("empty-stretch-shares", Fault::EmptyStretchShares),
    ("stretch-turned", Fault::StretchTurned),
    ("sharing-table-first", Fault::SharingTableFirst),
    ("short-table-writes", Fault::ShortTableWrites),
    ("later-of-equals", Fault::LaterOfEquals),
    ("offset-cut", Fault::OffsetCut),
    ("none-needs-row", Fault::NoneNeedsRow),
    ("refused-filing-writes", Fault::RefusedFilingWrites),
    ("refused-filing-charges", Fault::RefusedFilingCharges),
    ("never-full", Fault::NeverFull),
    ("common-of-each", Fault::CommonOfEach),
    ("place-before-room", Fault::PlaceBeforeRoom),
    ("unchanged-free", Fault::UnchangedFree),
    ("empty-uses-none", Fault::EmptyUsesNone),
    ("reserve-lent", Fault::ReserveLent),
    ("reserve-first", Fault::ReserveFirst),
    ("releases-twice", Fault::ReleasesTwice),
    ("reserves-wrap", Fault::ReservesWrap),
    ("cut-before-keycap", Fault::CutBeforeKeycap),
    ("cut-before-tag", Fault::CutBeforeTag),
    ("cut-inside-character", Fault::CutInsideCharacter),
    ("cut-below-offset", Fault::CutBelowOffset),
    ("cut-not-at-end", Fault::CutNotAtEnd),
    ("cut-tests-form", Fault::CutTestsForm),
];
