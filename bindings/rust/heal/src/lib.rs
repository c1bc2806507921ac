//! heal for Rust: the name registry of two halves of a cluster, over the C library.
//!
//! `bindings/c/heal.h` describes each call, with its refusals. A refused call changes nothing.
//!
//! ```
//! use heal::{Owner, Registration, Side, SideId};
//!
//! let mut side = Side::new(SideId::A)?;
//! side.register(b"db", Registration::new(Owner::new(1, 10), 5))?;
//! let found = side.whereis(b"db")?.expect("a registered name");
//! assert_eq!(found.owner, Owner::new(1, 10));
//! # Ok::<(), heal::Refused>(())
//! ```
mod handle;
mod message;
mod refusal;
mod replica;
mod sandbox;
mod types;

use handle::{Held, Kind};
use heal_sys as ffi;
pub use message::{list_fault, offer_fault, peek, Fault, Head, MessageKind, Place};
pub use refusal::Refusal;
pub use replica::{log_front, Life, LogFront, Position, Replica, ReplicaState};
pub use sandbox::Sandbox;
use std::error::Error;
use std::fmt;
pub use types::{
    Clash, Ended, Facts, Missing, Notice, OpenExchange, Outcome, Owner, ProgramId, Registration,
    Resolver, SideState, Verdict,
};

/// The length of a clash record in bytes.
pub const RECORD_LEN: usize = 160;

/// What a walk over rows returns after the last one.
const NO_ROW: u32 = 92;

/// A refused call: its number, and the slot if the refusal concerns a slot of a program.
///
/// ```
/// use heal::{Program, Refusal};
///
/// let refused = Program::load(&[0x95, 0, 0, 0, 0, 0, 0, 0]).expect_err("R0 is unset");
/// assert_eq!(refused.refusal(), Some(Refusal::Unreadable));
/// assert_eq!(refused.slot, Some(0));
/// ```
#[derive(Clone, Copy, Debug, PartialEq, Eq)]
#[non_exhaustive]
pub struct Refused {
    pub number: u32,
    pub slot: Option<u32>,
}

impl Refused {
    /// Returns the refusal by name, unless this crate is older than its number.
    pub fn refusal(&self) -> Option<Refusal> {
        Refusal::try_from(self.number).ok()
    }
}

impl fmt::Display for Refused {
    fn fmt(&self, f: &mut fmt::Formatter<'_>) -> fmt::Result {
        write!(f, "refused {}", self.number)?;
        if let Some(slot) = self.slot {
            write!(f, " at slot {slot}")?;
        }
        write!(f, ": {}", words_of(self.number))
    }
}

impl Error for Refused {}

/// Returns the version of the library: its major, minor and patch numbers.
pub fn version() -> (u8, u8, u8) {
    // SAFETY: the call has no arguments.
    let [_, major, minor, patch] = unsafe { ffi::heal_version() }.to_be_bytes();
    (major, minor, patch)
}

/// Returns the words of a refusal.
pub fn words_of(number: u32) -> String {
    let mut words = [0; 256];
    // SAFETY: `words` has as many writable bytes as the capacity.
    let len = unsafe { ffi::heal_refusal_words(number, words.as_mut_ptr(), words.len()) };
    String::from_utf8_lossy(&words[..len.min(words.len())]).into_owned()
}

/// Returns an error unless the number is 0.
fn answer(number: u32) -> Result<(), Refused> {
    match number {
        0 => Ok(()),
        _ => Err(Refused { number, slot: None }),
    }
}

/// Returns an error unless the number is 0, with the slot if the number is one of a slot's.
fn answer_at(number: u32, slot: u32) -> Result<(), Refused> {
    let slot = (4..=26).contains(&number).then_some(slot);
    match number {
        0 => Ok(()),
        _ => Err(Refused { number, slot }),
    }
}

/// Returns the record of a clash of two registrations of a name at a word.
pub fn record(
    name: &[u8],
    [first, second]: [Registration; 2],
    word: u64,
    [of_first, of_second]: [Facts; 2],
) -> Result<[u8; RECORD_LEN], Refused> {
    let mut made = [0; RECORD_LEN];
    let (first, second) = (first.into(), second.into());
    let (of_first, of_second) = (of_first.into(), of_second.into());
    // SAFETY: every pointer is to a live value of its type, and the name has `len` bytes.
    answer(unsafe {
        ffi::heal_record(
            name.as_ptr(),
            name.len(),
            &first,
            &second,
            word,
            &of_first,
            &of_second,
            &mut made,
        )
    })?;
    Ok(made)
}

/// A verified program.
#[derive(Debug)]
pub struct Program {
    pub(crate) held: Held,
}

impl Program {
    /// Reads bytes as a program (RFC 9669) and verifies it.
    pub fn load(code: &[u8]) -> Result<Program, Refused> {
        let mut program = Program {
            held: Held::empty(Kind::Program),
        };
        let mut slot = 0;
        // SAFETY: the code has `len` bytes; the handle is empty and owned.
        let number = unsafe {
            ffi::heal_program_load(code.as_ptr(), code.len(), program.held.at_mut(), &mut slot)
        };
        answer_at(number, slot)?;
        Ok(program)
    }

    /// Runs the program on the record of a clash.
    pub fn judge(&self, record: &[u8; RECORD_LEN]) -> Result<Ended, Refused> {
        let mut ended = ffi::Ended::default();
        // SAFETY: the handle is owned, and no call changes it while `&self` lives.
        answer(unsafe { ffi::heal_program_judge(self.held.at(), record, &mut ended) })?;
        Ok(Ended {
            r0: ended.r0,
            steps: ended.steps,
        })
    }

    /// Returns the program's id.
    pub fn id(&self) -> Result<ProgramId, Refused> {
        let mut id = [0; 32];
        // SAFETY: as in `judge`.
        answer(unsafe { ffi::heal_program_id(self.held.at(), &mut id) })?;
        Ok(ProgramId(id))
    }
}

/// One half's side of exchanges, with its table and its uploads.
#[derive(Debug)]
pub struct Side {
    pub(crate) held: Held,
}

/// Which of the two halves a side is.
#[derive(Clone, Copy, Debug, PartialEq, Eq)]
pub enum SideId {
    A = 0,
    B = 1,
}

/// A call that returns a row by its index.
type RowAt = unsafe extern "C" fn(*const ffi::Handle, usize, *mut ffi::Row) -> u32;
/// A call that returns the row after a name.
type RowAfter = unsafe extern "C" fn(*const ffi::Handle, *const u8, usize, *mut ffi::Row) -> u32;

// SAFETY in each call below: the handle is owned; `&mut self` makes a call that changes it the only one on it, and calls with
// `&self` only read it; slices have `len` bytes; results are live values of their types.
impl Side {
    /// Creates an idle side without names.
    pub fn new(id: SideId) -> Result<Side, Refused> {
        let mut side = Side {
            held: Held::empty(Kind::Side),
        };
        answer(unsafe { ffi::heal_side_new(id as u32, side.held.at_mut()) })?;
        Ok(side)
    }

    /// Creates an idle side without names, which may have `names` names: 1 to 1,048,576. Another number is refused 92.
    pub fn with_limit(id: SideId, names: usize) -> Result<Side, Refused> {
        let mut side = Side {
            held: Held::empty(Kind::Side),
        };
        answer(unsafe { ffi::heal_side_new_within(id as u32, names, side.held.at_mut()) })?;
        Ok(side)
    }

    /// Verifies and keeps a program, and returns its id.
    pub fn upload(&mut self, code: &[u8]) -> Result<ProgramId, Refused> {
        let (mut id, mut slot) = ([0; 32], 0);
        let number = unsafe {
            ffi::heal_side_upload(
                self.held.at_mut(),
                code.as_ptr(),
                code.len(),
                &mut id,
                &mut slot,
            )
        };
        answer_at(number, slot)?;
        Ok(ProgramId(id))
    }

    /// Forgets a program that no row names.
    pub fn forget(&mut self, id: ProgramId) -> Result<(), Refused> {
        answer(unsafe { ffi::heal_side_forget(self.held.at_mut(), &id.0) })
    }

    /// Returns the ids of the uploaded programs, in order.
    pub fn programs(&self) -> Result<Vec<ProgramId>, Refused> {
        let mut ids = Vec::new();
        let mut id = [0; 32];
        loop {
            match unsafe { ffi::heal_side_program(self.held.at(), ids.len(), &mut id) } {
                NO_ROW => return Ok(ids),
                number => answer(number)?,
            }
            ids.push(ProgramId(id));
        }
    }

    /// Returns the code of an uploaded program, or of one that a row names.
    pub fn code(&self, id: ProgramId) -> Result<Vec<u8>, Refused> {
        let mut code = Held::empty(Kind::Bytes);
        answer(unsafe { ffi::heal_side_code(self.held.at(), &id.0, code.at_mut()) })?;
        code.bytes()
    }

    /// Registers a name on an idle side.
    pub fn register(&mut self, name: &[u8], registration: Registration) -> Result<(), Refused> {
        let registration = registration.into();
        answer(unsafe {
            ffi::heal_side_register(self.held.at_mut(), name.as_ptr(), name.len(), &registration)
        })
    }

    /// Unregisters a name on an idle side.
    pub fn unregister(&mut self, name: &[u8]) -> Result<(), Refused> {
        answer(unsafe { ffi::heal_side_unregister(self.held.at_mut(), name.as_ptr(), name.len()) })
    }

    /// Returns the registration of a name, or `None`.
    pub fn whereis(&self, name: &[u8]) -> Result<Option<Registration>, Refused> {
        let mut found = ffi::Registration::default();
        let number = unsafe {
            ffi::heal_side_whereis(self.held.at(), name.as_ptr(), name.len(), &mut found)
        };
        match number {
            31 => Ok(None),
            _ => answer(number).map(|()| Some(found.into())),
        }
    }

    /// Returns the names and registrations of the table, in the order of names; in an open exchange, with the withdrawn ones.
    pub fn rows(&self) -> Result<Vec<(Vec<u8>, Registration)>, Refused> {
        self.walk(ffi::heal_side_row, ffi::heal_side_row_after)
    }

    /// Returns the same without the names that the side withdrew in the open exchange.
    pub fn live_rows(&self) -> Result<Vec<(Vec<u8>, Registration)>, Refused> {
        self.walk(ffi::heal_side_live, ffi::heal_side_live_after)
    }

    /// Returns the rows that two calls of the library list: one by an index, the other after a name.
    fn walk(&self, at: RowAt, after: RowAfter) -> Result<Vec<(Vec<u8>, Registration)>, Refused> {
        let mut count = 0;
        answer(unsafe { ffi::heal_side_count(self.held.at(), &mut count) })?;
        let mut rows = Vec::with_capacity(count);
        let mut row = ffi::Row::default();
        let mut number = unsafe { at(self.held.at(), 0, &mut row) };
        while number != NO_ROW {
            answer(number)?;
            let (name, registration) = (types::bytes_of(&row.name), row.registration.into());
            number = unsafe { after(self.held.at(), name.as_ptr(), name.len(), &mut row) };
            rows.push((name, registration));
        }
        Ok(rows)
    }

    /// Returns what the side knows. After 39, `missing` of the open exchange states what is missing.
    pub fn state(&self) -> Result<SideState, Refused> {
        let mut found = ffi::State::default();
        answer(unsafe { ffi::heal_side_query(self.held.at(), &mut found) })?;
        Ok(found.into())
    }

    /// Returns the names that the side withdrew in the open exchange, the earliest first.
    pub fn withdrawn(&self) -> Result<Vec<Vec<u8>>, Refused> {
        let mut names = Vec::new();
        let mut name = ffi::Name::default();
        loop {
            match unsafe { ffi::heal_side_withdrawn(self.held.at(), names.len(), &mut name) } {
                NO_ROW => return Ok(names),
                number => answer(number)?,
            }
            names.push(types::bytes_of(&name));
        }
    }

    /// Opens an exchange, and returns the offer to be sent.
    pub fn begin(&mut self, number: u64, seed: u64, uptime: u64) -> Result<Vec<u8>, Refused> {
        let mut offer = Held::empty(Kind::Bytes);
        answer(unsafe {
            ffi::heal_side_begin(self.held.at_mut(), number, seed, uptime, offer.at_mut())
        })?;
        offer.bytes()
    }

    /// Hears the other side's offer.
    pub fn hear(&mut self, offer: &[u8]) -> Result<(), Refused> {
        answer(unsafe { ffi::heal_side_hear(self.held.at_mut(), offer.as_ptr(), offer.len()) })
    }

    /// Judges every clash that has no ruling, at the word that both halves judge it at.
    pub fn settle(&mut self) -> Result<(), Refused> {
        answer(unsafe { ffi::heal_side_settle(self.held.at_mut()) })
    }

    /// Withdraws a name in the open exchange.
    pub fn withdraw(&mut self, name: &[u8]) -> Result<(), Refused> {
        answer(unsafe { ffi::heal_side_withdraw(self.held.at_mut(), name.as_ptr(), name.len()) })
    }

    /// Closes the list of withdrawn names, and returns the list to be sent.
    pub fn close_list(&mut self) -> Result<Vec<u8>, Refused> {
        let mut list = Held::empty(Kind::Bytes);
        answer(unsafe { ffi::heal_side_close_list(self.held.at_mut(), list.at_mut()) })?;
        list.bytes()
    }

    /// Hears the other side's list of withdrawn names.
    pub fn hear_list(&mut self, list: &[u8]) -> Result<(), Refused> {
        answer(unsafe { ffi::heal_side_hear_list(self.held.at_mut(), list.as_ptr(), list.len()) })
    }

    /// Replaces the table by the merge, and returns the outcome.
    pub fn finish(&mut self) -> Result<Outcome, Refused> {
        let mut outcome = Held::empty(Kind::Outcome);
        answer(unsafe { ffi::heal_side_finish(self.held.at_mut(), outcome.at_mut()) })?;
        outcome.outcome()
    }

    /// Closes the exchange and keeps the table, without the withdrawn names.
    pub fn abandon(&mut self) -> Result<(), Refused> {
        answer(unsafe { ffi::heal_side_abandon(self.held.at_mut()) })
    }

    /// Returns the number of events in the journal.
    pub fn events(&self) -> Result<usize, Refused> {
        let mut events = 0;
        answer(unsafe { ffi::heal_side_events(self.held.at(), &mut events) })?;
        Ok(events)
    }

    /// Starts a fresh journal on an idle side.
    pub fn renew(&mut self) -> Result<(), Refused> {
        answer(unsafe { ffi::heal_side_renew(self.held.at_mut()) })
    }

    /// Gives the open exchange up, if there is one, and starts a fresh journal, also if the journal is full.
    pub fn give_up(&mut self) -> Result<(), Refused> {
        answer(unsafe { ffi::heal_side_give_up(self.held.at_mut()) })
    }
}
