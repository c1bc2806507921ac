//! Plain values that cross the boundary.
use crate::SideId;
use heal_sys as ffi;
use std::fmt;

/// The SHA-256 digest of a program's bytes.
#[derive(Clone, Copy, Debug, PartialEq, Eq, PartialOrd, Ord, Hash)]
pub struct ProgramId(pub [u8; 32]);

/// The resolver of a name's clashes.
#[derive(Clone, Copy, Debug, PartialEq, Eq)]
#[non_exhaustive]
pub enum Resolver {
    /// One of the two owners keeps the name, and the other exits.
    Exit,
    /// One of the two owners keeps the name, and the other is notified.
    Notify,
    /// Neither keeps the name, and both are notified.
    NotifyAll,
    /// An uploaded program decides.
    Program(ProgramId),
}

/// The owner of a name: a number on a node.
#[derive(Clone, Copy, Debug, PartialEq, Eq, PartialOrd, Ord, Hash)]
pub struct Owner {
    pub node: u32,
    pub serial: u32,
}

impl Owner {
    /// The owner with this serial number on this node.
    pub const fn new(node: u32, serial: u32) -> Owner {
        Owner { node, serial }
    }
}

impl fmt::Display for Owner {
    fn fmt(&self, f: &mut fmt::Formatter<'_>) -> fmt::Result {
        write!(f, "{}.{}", self.node, self.serial)
    }
}

/// A name's entry. Only programs read `weight` and `extra`.
#[derive(Clone, Copy, Debug, PartialEq, Eq)]
pub struct Registration {
    pub owner: Owner,
    pub stamp: u64,
    pub weight: u64,
    pub extra: [u8; 16],
    pub resolver: Resolver,
}

impl Registration {
    /// A registration with the resolver `Exit`, weight 0 and no further bytes.
    pub fn new(owner: Owner, stamp: u64) -> Registration {
        Registration {
            owner,
            stamp,
            weight: 0,
            extra: [0; 16],
            resolver: Resolver::Exit,
        }
    }
}

/// The number of names in a half's table, and the half's uptime.
#[derive(Clone, Copy, Debug, PartialEq, Eq)]
pub struct Facts {
    pub size: u64,
    pub uptime: u64,
}

/// The outcome of a run: the answer in R0, and the number of steps.
#[derive(Clone, Copy, Debug, PartialEq, Eq)]
#[non_exhaustive]
pub struct Ended {
    pub r0: u64,
    pub steps: u32,
}

/// Who keeps the name of a clash.
#[derive(Clone, Copy, Debug, PartialEq, Eq)]
pub enum Verdict {
    First,
    Second,
    Neither,
}

/// A notice to an owner.
#[derive(Clone, Copy, Debug, PartialEq, Eq)]
#[non_exhaustive]
pub enum Notice {
    /// This owner exits.
    Exit(Owner),
    /// This owner no longer holds the name.
    Conflict(Owner),
    /// This owner no longer holds the name, and neither does the other.
    ConflictWith(Owner, Owner),
}

/// A clash of a finished exchange, with its ruling and the notices to deliver.
#[derive(Clone, Debug, PartialEq, Eq)]
#[non_exhaustive]
pub struct Clash {
    pub name: Vec<u8>,
    pub first: Registration,
    pub second: Registration,
    pub word: u64,
    pub verdict: Verdict,
    /// Who keeps the name: the verdict, or `Neither` if the winner was withdrawn. Then there are no notices, and the half of the
    /// other owner registers it again, unless it withdrew the name too.
    pub keeps: Verdict,
    /// The half that registered `first`.
    pub first_half: SideId,
    pub notices: Vec<Notice>,
}

/// A finished exchange: its number, the number of names in the merged table, and the clashes in the order of names.
#[derive(Clone, Debug, PartialEq, Eq)]
#[non_exhaustive]
pub struct Outcome {
    pub number: u64,
    pub merged: usize,
    /// The names that half A withdrew, and those that half B did, the earliest first.
    pub withdrawn: [Vec<Vec<u8>>; 2],
    pub clashes: Vec<Clash>,
}

/// What a side knows.
#[derive(Clone, Copy, Debug, PartialEq, Eq)]
#[non_exhaustive]
pub struct SideState {
    pub id: SideId,
    /// The greatest number that the side began.
    pub latest: Option<u64>,
    /// The open exchange.
    pub open: Option<OpenExchange>,
}

/// What a side knows of its open exchange.
#[derive(Clone, Copy, Debug, PartialEq, Eq)]
#[non_exhaustive]
pub struct OpenExchange {
    pub number: u64,
    /// The other side's offer was heard.
    pub has_heard: bool,
    /// The list of this side is closed.
    pub has_closed: bool,
    /// The other side's list was heard.
    pub has_heard_list: bool,
    /// The first thing that the exchange lacks before `finish`.
    pub missing: Option<Missing>,
}

/// What an open exchange lacks.
#[derive(Clone, Copy, Debug, PartialEq, Eq)]
pub enum Missing {
    /// The other side's offer.
    Offer,
    /// The ruling of this clash, counted from 0 in the order of names: call `settle`.
    Ruling(usize),
    /// The list of this side: call `close_list`.
    OwnList,
    /// The other side's list.
    List,
}

impl From<Owner> for ffi::Owner {
    fn from(owner: Owner) -> ffi::Owner {
        ffi::Owner {
            node: owner.node,
            serial: owner.serial,
        }
    }
}

impl From<ffi::Owner> for Owner {
    fn from(owner: ffi::Owner) -> Owner {
        Owner {
            node: owner.node,
            serial: owner.serial,
        }
    }
}

impl From<Facts> for ffi::Facts {
    fn from(facts: Facts) -> ffi::Facts {
        ffi::Facts {
            size: facts.size,
            uptime: facts.uptime,
            reserved: 0,
        }
    }
}

impl From<Registration> for ffi::Registration {
    fn from(registration: Registration) -> ffi::Registration {
        let (resolver, program) = match registration.resolver {
            Resolver::Exit => (0, [0; 32]),
            Resolver::Notify => (1, [0; 32]),
            Resolver::NotifyAll => (2, [0; 32]),
            Resolver::Program(ProgramId(id)) => (3, id),
        };
        ffi::Registration {
            owner: registration.owner.into(),
            stamp: registration.stamp,
            weight: registration.weight,
            extra: registration.extra,
            resolver,
            program,
            reserved: 0,
        }
    }
}

impl From<ffi::Registration> for Registration {
    fn from(registration: ffi::Registration) -> Registration {
        let resolver = match registration.resolver {
            0 => Resolver::Exit,
            1 => Resolver::Notify,
            2 => Resolver::NotifyAll,
            _ => Resolver::Program(ProgramId(registration.program)),
        };
        Registration {
            owner: registration.owner.into(),
            stamp: registration.stamp,
            weight: registration.weight,
            extra: registration.extra,
            resolver,
        }
    }
}

impl From<ffi::Notice> for Notice {
    fn from(notice: ffi::Notice) -> Notice {
        match notice.kind {
            0 => Notice::Exit(notice.to.into()),
            1 => Notice::Conflict(notice.to.into()),
            _ => Notice::ConflictWith(notice.to.into(), notice.other.into()),
        }
    }
}

impl From<ffi::State> for SideState {
    fn from(state: ffi::State) -> SideState {
        let open = OpenExchange {
            number: state.number,
            has_heard: state.has_heard != 0,
            has_closed: state.has_closed != 0,
            has_heard_list: state.has_heard_list != 0,
            missing: match state.missing {
                0 => None,
                1 => Some(Missing::Offer),
                2 => Some(Missing::Ruling(state.missing_clash as usize)),
                3 => Some(Missing::OwnList),
                _ => Some(Missing::List),
            },
        };
        SideState {
            id: side_of(state.side),
            latest: (state.has_begun != 0).then_some(state.latest),
            open: (state.is_open != 0).then_some(open),
        }
    }
}

/// Returns the side that the library writes as this number.
pub(crate) fn side_of(number: u32) -> SideId {
    match number {
        0 => SideId::A,
        _ => SideId::B,
    }
}

/// Returns the verdict that the library writes as this number.
pub(crate) fn verdict_of(number: u32) -> Verdict {
    match number {
        1 => Verdict::First,
        2 => Verdict::Second,
        _ => Verdict::Neither,
    }
}

/// Returns the bytes of a name.
pub(crate) fn bytes_of(name: &ffi::Name) -> Vec<u8> {
    name.bytes[..name.len as usize].to_vec()
}
