//! The wrong receivers and hosts that a comparison has to catch. Each is the second receiver or host with one fault.

use crate::table::{self, place, row, LAST, MICRO, POSITION, RULE};
use std::ops::Range;

macro_rules! faults {
    ($($case:ident = $name:literal,)*) => {
        /// One place in which the second receiver or the second host is wrong.
        #[derive(Clone, Copy, PartialEq, Eq, Debug)]
        pub enum Fault { None, $($case,)* }

        impl Fault {
            pub const ALL: &'static [Fault] = &[$(Fault::$case,)*];

            pub fn name(self) -> &'static str {
                match self { Fault::None => "none", $(Fault::$case => $name,)* }
            }
        }
    };
}

faults! {
    // "Wrong receivers that look right"
    StoredAsTheyCome = "stored-as-they-come",
    CrcOverIdentifier = "crc-over-identifier",
    CrcHighByteFirst = "crc-high-byte-first",
    CrcSentHighByteFirst = "crc-sent-high-byte-first",
    ErrcSlidesByOne = "errc-slides-by-one",
    ZeroResynchronises = "zero-resynchronises",
    FourHundredTooLong = "400-too-long",
    PlainSubtraction = "plain-subtraction",
    // "What the promises have to shut out"
    RefusesEachCall = "refuses-each-call",
    ConstantReply = "constant-reply",
    TakesNoByte = "takes-no-byte",
    EchoesLater = "echoes-later",
    InventsTheCount = "invents-the-count",
    // Others near to these
    HalfASetting = "half-a-setting",
    LastBadField = "last-bad-field",
    RangeBeforeCrc = "range-before-crc",
    FlagsOverwritten = "flags-overwritten",
    StampNotSet = "stamp-not-set",
    RoomOneOff = "room-one-off",
    RoomOf01 = "room-of-01",
    FitOneOff = "fit-one-off",
    PieceOneOff = "piece-one-off",
    RefusalsExchanged = "refusals-exchanged",
    GoesOnAfterOrder = "goes-on-after-order",
    EmptySetsStamp = "empty-sets-stamp",
    ReservedKept = "reserved-kept",
    ReservedRefused = "reserved-refused",
    InfinityPasses = "infinity-passes",
    // A field's flag bits
    UnknownBitPasses = "unknown-bit-passes",
    KnownBitRefused = "known-bit-refused",
    UnknownBitMisnumbered = "unknown-bit-misnumbered",
    UnknownBitLast = "unknown-bit-last",
    // The rules of ctl and joy, and the elements of ctl's arrays
    RuleBeforeRanges = "rule-before-ranges",
    RuleAs98 = "rule-as-98",
    RuleAs1 = "rule-as-1",
    RuleUntested = "rule-untested",
    SpeedRuledAlone = "speed-ruled-alone",
    PartRuledAlone = "part-ruled-alone",
    LowBelowCentre = "low-below-centre",
    LowUntested = "low-untested",
    HighUntested = "high-untested",
    TenthSpeedUntested = "tenth-speed-untested",
    FreshSpeedZero = "fresh-speed-zero",
    PutSpeedsExchanged = "put-speeds-exchanged",
    PutPartsBehindTimeouts = "put-parts-behind-timeouts",
    // A state accepted that breaks one rule of soundness
    ZeroBegins = "unsound-zero-first",
    AnyNameBegins = "unsound-name",
    WholeSetBegins = "unsound-whole-set",
    LongestHeld = "unsound-longest-held",
    CountOverFrame = "unsound-count",
    FlagsOver7 = "unsound-flags",
    FieldOutOfRange = "unsound-field",
    UnknownBit = "unsound-unknown-bit",
    RuleBroken = "unsound-rule",
    ReservedNotZero = "unsound-reserved",
    FirstReservedUntested = "unsound-first-reserved",
    LastByteUntested = "unsound-last-byte",
    PositionOutOfRange = "unsound-position",
    // The table: where a set puts its data section and a get finds it
    PutElsewhere = "put-elsewhere",
    PutOneLater = "put-one-later",
    PutOneShort = "put-one-short",
    PutOneOver = "put-one-over",
    GetElsewhere = "get-elsewhere",
    GetOneLater = "get-one-later",
    BlocksExchanged = "blocks-exchanged",
    // The table handed out
    HandOutRoomOneOff = "hand-out-room-one-off",
    HandOutSoundnessFirst = "hand-out-soundness-first",
    HandOutUnjudged = "hand-out-unjudged",
    HandOutJudgesTable = "hand-out-judges-table",
    HandOutWritesRefused = "hand-out-writes-refused",
    HandOutWritesWhatFits = "hand-out-writes-what-fits",
    HandOutOneShort = "hand-out-one-short",
    HandOutWritesPast = "hand-out-writes-past",
    // A stored table taken back
    TakeBackUnjudged = "take-back-unjudged",
    TakeBackLonger = "take-back-longer",
    TakeBackShorter = "take-back-shorter",
    TakeBackSoundnessFirst = "take-back-soundness-first",
    TakeBackCleansReserved = "take-back-cleans-reserved",
    TakeBackKeepsRefused = "take-back-keeps-refused",
    TakeBackOneShort = "take-back-one-short",
    TakeBackFlags = "take-back-flags",
    // A block looked at in a table
    ViewElsewhere = "view-elsewhere",
    ViewOneLater = "view-one-later",
    ViewWholeOrZeros = "view-whole-or-zeros",
    ViewFreshBehind = "view-fresh-behind",
    ViewSpeedsExchanged = "view-speeds-exchanged",
    ViewPartsBehindTimeouts = "view-parts-behind-timeouts",
    // A report of the time
    ReportSetsStamp = "report-sets-stamp",
    Report400TooLong = "report-400-too-long",
    ReportDropsAlways = "report-drops-always",
    ReportDropsNever = "report-drops-never",
    ReportPlainSubtraction = "report-plain-subtraction",
    ReportFlags = "report-flags",
    ReportRefusesSound = "report-refuses-sound",
    ReportAcceptsUnsound = "report-accepts-unsound",
    // Travel: move and movr
    TravelExchanged = "travel-exchanged",
    TravelLeftOut = "travel-left-out",
    MoveStored = "move-stored",
    OrderNineForEight = "order-9-for-8",
    MovrRefusedAsMove = "movr-refused-as-move",
    // The position: fresh, spos, gpos and zero
    FreshPosition = "fresh-position",
    Microsteps256Pass = "microsteps-256-pass",
    Microsteps255Refused = "microsteps-255-refused",
    LeftMicrostepsUntested = "left-microsteps-untested",
    Flag1LeavesCount = "flag-1-leaves-count",
    Flag2Ignored = "flag-2-ignored",
    Flag4Passes = "flag-4-passes",
    GposSendsWhatWasSet = "gpos-sends-what-was-set",
    GposExchanged = "gpos-exchanged",
    ZeroClearsCount = "zero-clears-count",
    ZeroKeepsMicrosteps = "zero-keeps-microsteps",
    ZeroNotEchoed = "zero-not-echoed",
    ZeroGivesOrder = "zero-gives-order",
    ZeroStopsCall = "zero-stops-call",
    // A report of the position
    PositionReportDrops = "position-report-drops",
    PositionReportSetsStamp = "position-report-sets-stamp",
    PositionReportAccepts256 = "position-report-accepts-256",
    PositionReportRefuses255 = "position-report-refuses-255",
    PositionReportChangesNothing = "position-report-changes-nothing",
    PositionReportLeavesCount = "position-report-leaves-count",
    PositionReportStoresRefused = "position-report-stores-refused",
    PositionReportRangeFirst = "position-report-range-first",
    PositionReportAcceptsUnsound = "position-report-accepts-unsound",
    // A host's writer
    HostRangeSkipped = "host-range-skipped",
    HostRangeOneOff = "host-range-one-off",
    HostUnknownBitPasses = "host-unknown-bit-passes",
    HostReservedSent = "host-reserved-sent",
    HostCrcHighByteFirst = "host-crc-high-byte-first",
    HostRoomBeforeRange = "host-room-before-range",
    HostWritesPast = "host-writes-past",
    HostWritesWhatFits = "host-writes-what-fits",
    HostWrittenOneOff = "host-written-one-off",
    // A host's reader
    HostZeroNotFirst = "host-zero-not-first",
    HostCutBeforeName = "host-cut-before-name",
    HostCrcUnread = "host-crc-unread",
    HostReadOneOff = "host-read-one-off",
    HostReaderJudgesRange = "host-reader-judges-range",
    HostReaderJudgesReserved = "host-reader-judges-reserved",
}

impl Fault {
    /// The number of the field for which a receiver with this fault refuses a set's data section, 0 if it takes it.
    #[inline(always)]
    pub fn bad_field(self, set: usize, data: &[u8]) -> usize {
        match self {
            Fault::None => table::bad_field(set, data),
            _ => self.wrong_field(set, data),
        }
    }

    /// The reserved bytes of a block's data section that a receiver with this fault looks at.
    #[inline(always)]
    pub fn reserved(self, block: usize, data: &[u8]) -> &[u8] {
        let reserved = &data[data.len() - row(block).reserved..];
        match self {
            Fault::FirstReservedUntested => &reserved[1..],
            Fault::LastByteUntested if block == LAST => &reserved[..reserved.len() - 1],
            _ => reserved,
        }
    }

    /// Where a receiver with this fault has a block for a put, a get or a view, of which `elsewhere` and `later` are the faults.
    #[inline(always)]
    pub fn place(self, block: usize, elsewhere: Fault, later: Fault) -> Range<usize> {
        match self {
            Fault::None => place(block),
            _ => self.wrong_place(block, elsewhere, later),
        }
    }

    fn wrong_place(self, block: usize, elsewhere: Fault, later: Fault) -> Range<usize> {
        let Range { start, end } = place(block);
        match block {
            // pwr at the place of eds
            3 if self == elsewhere => place(4).start..place(4).start + end - start,
            // brk a byte behind its place
            6 if self == later => start + 1..end + 1,
            // eds before pwr, in puts and gets alike
            3 if self == Fault::BlocksExchanged => place(4).end - (end - start)..place(4).end,
            4 if self == Fault::BlocksExchanged => place(3).start..place(3).start + (end - start),
            _ => start..end,
        }
    }

    /// What a receiver with this fault makes of ctl's data section in a put or a view, of which `exchanged` and `behind` are the faults.
    #[inline(always)]
    pub fn misplace(self, exchanged: Fault, behind: Fault, data: &mut [u8]) {
        if self == exchanged {
            // The second speed and the third
            data[4..12].rotate_left(4);
        }
        if self == behind {
            // Ten parts, nine timeouts
            data[40..68].rotate_left(10);
        }
    }

    /// Whether a receiver with this fault finds a report's microsteps out of range.
    pub fn reported_wide(self, bytes: &[u8]) -> bool {
        match self {
            Fault::PositionReportAccepts256 => !MICRO.takes(bytes) && !at_edge(bytes, 256),
            Fault::PositionReportRefuses255 => !MICRO.takes(bytes) || at_edge(bytes, 255),
            _ => !MICRO.takes(bytes),
        }
    }

    fn wrong_field(self, set: usize, data: &[u8]) -> usize {
        let mut bad = row(set).bad_fields(data);
        match (self, set) {
            (Fault::LastBadField, _) => bad.reverse(),
            // Kpf, Kif, Kdf
            (Fault::InfinityPasses, 7) => bad.clear(),
            // PowerFlags
            (Fault::UnknownBitPasses, 3) if data[7] & !0x0F == 0 => bad.retain(|&field| field != 5),
            // The high byte of HomeFlags
            (Fault::KnownBitRefused, 5) if data[17] != 0 => bad.push(7),
            // EnderFlags
            (Fault::UnknownBitMisnumbered, 4) => bad.iter_mut().for_each(|field| *field = if *field == 2 { 1 } else { *field }),
            // EngineFlags
            (Fault::UnknownBitLast, 2) => bad.sort_by_key(|&field| field == 5),
            // Microsteps
            (Fault::Microsteps256Pass, 8..=10) if at_edge(&data[4..6], 256) => bad.retain(|&field| field != 2),
            (Fault::Microsteps255Refused, 8..=10) if at_edge(&data[4..6], 255) => bad.insert(0, 2),
            (Fault::LeftMicrostepsUntested, 10) if data[POSITION] & 1 != 0 => bad.retain(|&field| field != 2),
            // The last field is blamed for reserved bytes
            (Fault::ReservedRefused, _) if data[row(set).used()..].iter().any(|&byte| byte != 0) => bad.push(row(set).fields.len()),
            // PosFlags
            (Fault::Flag4Passes, 10) if data[POSITION] & !0x07 == 0 => bad.retain(|&field| field != 4),
            // The tenth speed
            (Fault::TenthSpeedUntested, 11) => bad.retain(|&field| field != 10),
            (_, 11 | 12) => self.misrule(set, data, &mut bad),
            _ => {}
        }
        bad.first().copied().unwrap_or(0)
    }

    /// The bad fields of ctl or joy, as far as a rule is concerned, for a receiver with this fault.
    fn misrule(self, set: usize, data: &[u8], bad: &mut Vec<usize>) {
        let number = |at: usize| u16::from_le_bytes([data[at], data[at + 1]]);
        let kept = match (self, set) {
            (Fault::RuleUntested, _) => true,
            (Fault::SpeedRuledAlone, 11) => data[..4] != [0; 4],
            (Fault::PartRuledAlone, 11) => data[40] != 0,
            (Fault::LowBelowCentre, 12) => number(0) < number(2) && number(2) <= number(4),
            (Fault::LowUntested, 12) => number(2) <= number(4),
            (Fault::HighUntested, 12) => number(0) <= number(2),
            _ => row(set).keeps_rules(data),
        };
        bad.retain(|&field| field != RULE);
        match self {
            _ if kept => {}
            Fault::RuleBeforeRanges => bad.insert(0, RULE),
            Fault::RuleAs98 => bad.push(98),
            Fault::RuleAs1 => bad.push(1),
            _ => bad.push(RULE),
        }
    }
}

/// Whether these microsteps lie so far from 0, to either side.
fn at_edge(bytes: &[u8], edge: i16) -> bool {
    [edge.to_le_bytes(), (-edge).to_le_bytes()].iter().any(|at| at == bytes)
}
