//! Replicas: a half of many nodes.
use crate::handle::{Held, Kind};
use crate::types::bytes_of;
use crate::{answer, Program, Refused, Registration, Side, SideId, NO_ROW};
use heal_sys as ffi;

/// One life of a node. A node that restarts takes an incarnation that it never had.
#[derive(Clone, Copy, Debug, PartialEq, Eq)]
pub struct Life {
    pub node: u32,
    pub incarnation: u64,
}

/// A position: a view, by its primary and a number, and how many entries of the view led to it.
#[derive(Clone, Copy, Debug, PartialEq, Eq)]
pub struct Position {
    pub primary: Life,
    pub view: u64,
    pub op: u64,
}

/// What a replica knows. `latest` is the greatest number of an exchange that the half began.
#[derive(Clone, Copy, Debug, PartialEq, Eq)]
#[non_exhaustive]
pub struct ReplicaState {
    pub at: Position,
    pub names: u64,
    pub limit: u64,
    pub latest: Option<u64>,
    pub is_primary: bool,
}

/// What a log begins with. An entry and a snapshot have a number of bytes.
#[derive(Clone, Copy, Debug, PartialEq, Eq)]
pub enum LogFront {
    End,
    Cut,
    Entry(usize),
    Snapshot(usize),
}

impl From<Life> for ffi::Life {
    fn from(life: Life) -> ffi::Life {
        ffi::Life {
            incarnation: life.incarnation,
            node: life.node,
            reserved: 0,
        }
    }
}

impl From<Position> for ffi::Position {
    fn from(at: Position) -> ffi::Position {
        ffi::Position {
            primary: at.primary.into(),
            view: at.view,
            op: at.op,
            reserved: 0,
        }
    }
}

impl From<ffi::Position> for Position {
    fn from(at: ffi::Position) -> Position {
        Position {
            primary: Life {
                node: at.primary.node,
                incarnation: at.primary.incarnation,
            },
            view: at.view,
            op: at.op,
        }
    }
}

/// Returns what a log begins with, without looking behind it.
pub fn log_front(log: &[u8]) -> Result<LogFront, Refused> {
    let mut front = ffi::Front::default();
    // SAFETY: the log has `len` bytes, and `front` is a live value of its type.
    answer(unsafe { ffi::heal_log_front(log.as_ptr(), log.len(), &mut front) })?;
    Ok(match front.kind {
        0 => LogFront::End,
        3 => LogFront::Entry(front.size as usize),
        4 => LogFront::Snapshot(front.size as usize),
        _ => LogFront::Cut,
    })
}

/// A node's copy of a half. Each edit returns its entry, for the log and for the backups.
///
/// ```
/// use heal::{Life, Owner, Registration, Replica};
///
/// let mut primary = Replica::start(Life { node: 1, incarnation: 1 })?;
/// let mut backup = Replica::start(Life { node: 2, incarnation: 1 })?;
/// backup.follow(&primary.snapshot()?)?;
/// let entry = primary.register(b"db", Registration::new(Owner::new(1, 10), 5))?;
/// backup.apply(&entry)?;
/// assert_eq!(backup.state()?.at, primary.state()?.at);
/// # Ok::<(), heal::Refused>(())
/// ```
#[derive(Debug)]
pub struct Replica {
    held: Held,
}

// SAFETY in each call below: the handles are owned; `&mut self` makes a call that changes the replica the only one on it, and calls
// with `&self` only read it; slices have `len` bytes; results are live values of their types.
impl Replica {
    /// Starts a life of a node: a replica with an empty half, as the primary of its first view.
    pub fn start(life: Life) -> Result<Replica, Refused> {
        let mut held = Held::empty(Kind::Replica);
        answer(unsafe { ffi::heal_replica_start(&life.into(), held.at_mut()) })?;
        Ok(Replica { held })
    }

    /// Returns what the replica knows.
    pub fn state(&self) -> Result<ReplicaState, Refused> {
        let mut found = ffi::ReplicaState::default();
        answer(unsafe { ffi::heal_replica_query(self.held.at(), &mut found) })?;
        Ok(ReplicaState {
            at: found.at.into(),
            names: found.names,
            limit: found.limit,
            latest: (found.has_begun != 0).then_some(found.latest),
            is_primary: found.is_primary != 0,
        })
    }

    /// Registers a name, as the primary.
    pub fn register(
        &mut self,
        name: &[u8],
        registration: Registration,
    ) -> Result<Vec<u8>, Refused> {
        let (mut entry, registration) = (Held::empty(Kind::Bytes), registration.into());
        answer(unsafe {
            ffi::heal_replica_register(
                self.held.at_mut(),
                name.as_ptr(),
                name.len(),
                &registration,
                entry.at_mut(),
            )
        })?;
        entry.bytes()
    }

    /// Unregisters a name, as the primary.
    pub fn unregister(&mut self, name: &[u8]) -> Result<Vec<u8>, Refused> {
        let mut entry = Held::empty(Kind::Bytes);
        answer(unsafe {
            ffi::heal_replica_unregister(
                self.held.at_mut(),
                name.as_ptr(),
                name.len(),
                entry.at_mut(),
            )
        })?;
        entry.bytes()
    }

    /// Keeps a program for registrations, as the primary.
    pub fn upload(&mut self, program: &Program) -> Result<Vec<u8>, Refused> {
        let mut entry = Held::empty(Kind::Bytes);
        answer(unsafe {
            ffi::heal_replica_upload(self.held.at_mut(), program.held.at(), entry.at_mut())
        })?;
        entry.bytes()
    }

    /// Sets how many names registrations may bring the table to, as the primary: 1 to 1,048,576.
    pub fn set_limit(&mut self, names: usize) -> Result<Vec<u8>, Refused> {
        let mut entry = Held::empty(Kind::Bytes);
        answer(unsafe { ffi::heal_replica_limit(self.held.at_mut(), names, entry.at_mut()) })?;
        entry.bytes()
    }

    /// Records the number of the next exchange, as the primary: after `side`, and before the side begins.
    pub fn begin(&mut self, number: u64) -> Result<Vec<u8>, Refused> {
        let mut entry = Held::empty(Kind::Bytes);
        answer(unsafe { ffi::heal_replica_begin(self.held.at_mut(), number, entry.at_mut()) })?;
        entry.bytes()
    }

    /// Starts a view with the half as it is.
    pub fn lead(&mut self) -> Result<(), Refused> {
        answer(unsafe { ffi::heal_replica_lead(self.held.at_mut()) })
    }

    /// Returns the position and the half as bytes, for the other nodes and for the log.
    pub fn snapshot(&self) -> Result<Vec<u8>, Refused> {
        let mut snapshot = Held::empty(Kind::Bytes);
        answer(unsafe { ffi::heal_replica_snapshot(self.held.at(), snapshot.at_mut()) })?;
        snapshot.bytes()
    }

    /// Takes the position and the half of a snapshot.
    pub fn follow(&mut self, snapshot: &[u8]) -> Result<(), Refused> {
        answer(unsafe {
            ffi::heal_replica_follow(self.held.at_mut(), snapshot.as_ptr(), snapshot.len())
        })
    }

    /// Carries the edit of an entry out, unless the replica has it already.
    pub fn apply(&mut self, entry: &[u8]) -> Result<(), Refused> {
        answer(unsafe { ffi::heal_replica_apply(self.held.at_mut(), entry.as_ptr(), entry.len()) })
    }

    /// Returns the registration of a name, or `None`.
    pub fn whereis(&self, name: &[u8]) -> Result<Option<Registration>, Refused> {
        let mut found = ffi::Registration::default();
        let number = unsafe {
            ffi::heal_replica_whereis(self.held.at(), name.as_ptr(), name.len(), &mut found)
        };
        match number {
            31 => Ok(None),
            _ => answer(number).map(|()| Some(found.into())),
        }
    }

    /// Returns the names and registrations of the table, in the order of names.
    pub fn rows(&self) -> Result<Vec<(Vec<u8>, Registration)>, Refused> {
        let mut rows = Vec::new();
        let mut found = ffi::Row::default();
        let mut number = unsafe { ffi::heal_replica_row(self.held.at(), 0, &mut found) };
        while number != NO_ROW {
            answer(number)?;
            let name = bytes_of(&found.name);
            rows.push((name.clone(), found.registration.into()));
            number = unsafe {
                ffi::heal_replica_row_after(self.held.at(), name.as_ptr(), name.len(), &mut found)
            };
        }
        Ok(rows)
    }

    /// Returns an idle side with what the replica has, for an exchange with the other half's primary.
    pub fn side(&self, id: SideId) -> Result<Side, Refused> {
        let mut held = Held::empty(Kind::Side);
        answer(unsafe { ffi::heal_replica_side(self.held.at(), id as u32, held.at_mut()) })?;
        Ok(Side { held })
    }

    /// Starts a view with what an exchange left in the side. `from` is the position after `begin`.
    pub fn change(&mut self, from: Position, side: &Side) -> Result<(), Refused> {
        answer(unsafe {
            ffi::heal_replica_change(self.held.at_mut(), &from.into(), side.held.at())
        })
    }
}
