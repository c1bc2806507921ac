//! The refusals by name. refusals.py writes this file.

/// The refusals that calls return.
#[derive(Clone, Copy, Debug, PartialEq, Eq, PartialOrd, Ord, Hash)]
#[non_exhaustive]
#[repr(u32)]
pub enum Refusal {
    /// 1: empty: no byte, or a text without an instruction.
    Empty = 1,
    /// 2: more than 1,024 slots.
    TooLong = 2,
    /// 3: an incomplete last slot.
    Ragged = 3,
    /// 4: an unknown opcode or operation.
    UnknownOpcode = 4,
    /// 5: a register above R10.
    BadRegister = 5,
    /// 6: an unused field that isn't zero.
    FieldNotZero = 6,
    /// 7: a wide load without its second slot.
    CutWide = 7,
    /// 10: a backward jump.
    Backward = 10,
    /// 11: a jump to the end or past it.
    Outside = 11,
    /// 12: a jump into a wide load.
    IntoWide = 12,
    /// 13: the last instruction neither exits nor jumps.
    FallsOff = 13,
    /// 14: an unreachable instruction.
    NoEdge = 14,
    /// 15: a read of a register that may be unset, or may be an address or a number.
    Unreadable = 15,
    /// 16: a write to R10.
    WritesR10 = 16,
    /// 17: an address in an operation that addresses don't have.
    PointerOperation = 17,
    /// 18: an address moved too far, or by an unknown amount.
    PointerRange = 18,
    /// 19: an address in a test.
    PointerCompared = 19,
    /// 20: a store of an address.
    PointerStored = 20,
    /// 21: an access that may leave the record.
    OutsideRecord = 21,
    /// 22: a store into the record.
    WritesRecord = 22,
    /// 23: an access that may leave the stack.
    OutsideStack = 23,
    /// 24: a load of stack bytes that may be unwritten.
    UnwrittenStack = 24,
    /// 25: a number used as an address.
    ScalarAddress = 25,
    /// 26: an address as the answer.
    PointerResult = 26,
    /// 30: the name is already registered.
    NameTaken = 30,
    /// 31: the name isn't registered.
    NoSuchName = 31,
    /// 32: the table is full: 4,096 names, or the side's limit.
    Full = 32,
    /// 33: an exchange is open.
    Healing = 33,
    /// 34: no exchange is open.
    NotHealing = 34,
    /// 35: the number isn't above every number begun so far.
    StaleNumber = 35,
    /// 36: the seeds differ.
    SeedDiffers = 36,
    /// 37: the two tables have more names together than one may have: 4,096, or the side's limit.
    TooManyNames = 37,
    /// 39: the exchange isn't complete.
    Missing = 39,
    /// 40: the journal is full: 65,536 events, or 16 for each name of the side's limit.
    JournalFull = 40,
    /// 41: an unknown program, or a word that is neither a built-in resolver nor a label.
    UnknownProgram = 41,
    /// 42: other code has the same program id.
    OtherCode = 42,
    /// 43: the store is full: 256 programs.
    StoreFull = 43,
    /// 44: an invalid name: not 1 to 32 bytes from 0x21 to 0x7e.
    BadName = 44,
    /// 45: the exchange numbers differ.
    OtherNumber = 45,
    /// 46: a message from the side itself.
    OwnOffer = 46,
    /// 47: the name is already withdrawn.
    Withdrawn = 47,
    /// 48: the list of withdrawn names is closed.
    ListClosed = 48,
    /// 49: other tables, uptimes or withdrawn names were merged.
    Moved = 49,
    /// 70: a message that ends too early.
    Cut = 70,
    /// 71: not a message of this kind.
    Header = 71,
    /// 72: extra bytes after the message.
    Trailing = 72,
    /// 73: a count above its limit: 1,048,576 rows or names, 8,192 bytes of code.
    Count = 73,
    /// 74: an unknown side.
    Side = 74,
    /// 75: an invalid name in a message.
    Name = 75,
    /// 76: an unknown kind of resolver.
    Resolver = 76,
    /// 77: a name that the list already has.
    NameAgain = 77,
    /// 78: a name that isn't above the one before it.
    NameOrder = 78,
    /// 79: a program without code in this row or an earlier one.
    NoProgram = 79,
    /// 80: code that an earlier row already has.
    ProgramAgain = 80,
    /// 81: code in a message that the verifier rejects.
    Program = 81,
    /// 82: an unsupported version of messages.
    Version = 82,
    /// 83: a message that differs from the one of its kind and number that was heard.
    OtherMessage = 83,
    /// 84: bytes that differ from their checksum.
    Checksum = 84,
    /// 90: out of memory.
    OutOfMemory = 90,
    /// 91: an empty handle.
    EmptyHandle = 91,
    /// 92: an index out of range.
    OutOfRange = 92,
    /// 93: a buffer of another length.
    OtherLength = 93,
    /// 94: a registered name has the program as its resolver.
    StillNamed = 94,
    /// 95: the replica isn't the primary of its view.
    NotPrimary = 95,
    /// 96: an entry of another view.
    OtherView = 96,
    /// 97: entries before this one are missing.
    Gap = 97,
    /// 98: a snapshot of the replica's own latest view.
    OwnView = 98,
    /// 99: no number is left for a view or an entry.
    Exhausted = 99,
}

impl TryFrom<u32> for Refusal {
    type Error = u32;

    /// Returns the refusal with this number, or the number if it has no name.
    fn try_from(number: u32) -> Result<Refusal, u32> {
        match number {
            1 => Ok(Refusal::Empty),
            2 => Ok(Refusal::TooLong),
            3 => Ok(Refusal::Ragged),
            4 => Ok(Refusal::UnknownOpcode),
            5 => Ok(Refusal::BadRegister),
            6 => Ok(Refusal::FieldNotZero),
            7 => Ok(Refusal::CutWide),
            10 => Ok(Refusal::Backward),
            11 => Ok(Refusal::Outside),
            12 => Ok(Refusal::IntoWide),
            13 => Ok(Refusal::FallsOff),
            14 => Ok(Refusal::NoEdge),
            15 => Ok(Refusal::Unreadable),
            16 => Ok(Refusal::WritesR10),
            17 => Ok(Refusal::PointerOperation),
            18 => Ok(Refusal::PointerRange),
            19 => Ok(Refusal::PointerCompared),
            20 => Ok(Refusal::PointerStored),
            21 => Ok(Refusal::OutsideRecord),
            22 => Ok(Refusal::WritesRecord),
            23 => Ok(Refusal::OutsideStack),
            24 => Ok(Refusal::UnwrittenStack),
            25 => Ok(Refusal::ScalarAddress),
            26 => Ok(Refusal::PointerResult),
            30 => Ok(Refusal::NameTaken),
            31 => Ok(Refusal::NoSuchName),
            32 => Ok(Refusal::Full),
            33 => Ok(Refusal::Healing),
            34 => Ok(Refusal::NotHealing),
            35 => Ok(Refusal::StaleNumber),
            36 => Ok(Refusal::SeedDiffers),
            37 => Ok(Refusal::TooManyNames),
            39 => Ok(Refusal::Missing),
            40 => Ok(Refusal::JournalFull),
            41 => Ok(Refusal::UnknownProgram),
            42 => Ok(Refusal::OtherCode),
            43 => Ok(Refusal::StoreFull),
            44 => Ok(Refusal::BadName),
            45 => Ok(Refusal::OtherNumber),
            46 => Ok(Refusal::OwnOffer),
            47 => Ok(Refusal::Withdrawn),
            48 => Ok(Refusal::ListClosed),
            49 => Ok(Refusal::Moved),
            70 => Ok(Refusal::Cut),
            71 => Ok(Refusal::Header),
            72 => Ok(Refusal::Trailing),
            73 => Ok(Refusal::Count),
            74 => Ok(Refusal::Side),
            75 => Ok(Refusal::Name),
            76 => Ok(Refusal::Resolver),
            77 => Ok(Refusal::NameAgain),
            78 => Ok(Refusal::NameOrder),
            79 => Ok(Refusal::NoProgram),
            80 => Ok(Refusal::ProgramAgain),
            81 => Ok(Refusal::Program),
            82 => Ok(Refusal::Version),
            83 => Ok(Refusal::OtherMessage),
            84 => Ok(Refusal::Checksum),
            90 => Ok(Refusal::OutOfMemory),
            91 => Ok(Refusal::EmptyHandle),
            92 => Ok(Refusal::OutOfRange),
            93 => Ok(Refusal::OtherLength),
            94 => Ok(Refusal::StillNamed),
            95 => Ok(Refusal::NotPrimary),
            96 => Ok(Refusal::OtherView),
            97 => Ok(Refusal::Gap),
            98 => Ok(Refusal::OwnView),
            99 => Ok(Refusal::Exhausted),
            _ => Err(number),
        }
    }
}
