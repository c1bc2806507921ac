//! Handles that are freed when they go out of scope.
use crate::types::{bytes_of, side_of, verdict_of};
use crate::{answer, Clash, Notice, Outcome, Refused, SideId, NO_ROW};
use heal_sys as ffi;

/// What a handle holds.
#[derive(Clone, Copy, Debug)]
pub(crate) enum Kind {
    Program,
    Sandbox,
    Side,
    Bytes,
    Outcome,
    Replica,
}

/// An owned handle.
pub(crate) struct Held {
    kind: Kind,
    handle: ffi::Handle,
}

// SAFETY: the library keeps no state outside its handles. Calls that change what a handle holds need `&mut Held`; those that need
// only `&Held` read it, and any number of them may run at the same time.
unsafe impl Send for Held {}
unsafe impl Sync for Held {}

impl std::fmt::Debug for Held {
    fn fmt(&self, f: &mut std::fmt::Formatter<'_>) -> std::fmt::Result {
        write!(f, "{:?}", self.kind)
    }
}

impl Held {
    pub(crate) fn empty(kind: Kind) -> Held {
        Held {
            kind,
            handle: ffi::Handle::EMPTY,
        }
    }

    /// The address of the handle, for a call that reads it.
    pub(crate) fn at(&self) -> *const ffi::Handle {
        &self.handle
    }

    /// The address of the handle, for a call that changes what it holds.
    pub(crate) fn at_mut(&mut self) -> *mut ffi::Handle {
        &mut self.handle
    }

    /// Returns the bytes of a message.
    pub(crate) fn bytes(&self) -> Result<Vec<u8>, Refused> {
        let mut span = ffi::Span::EMPTY;
        // SAFETY: the handle is owned, so the message stays while its bytes are read.
        answer(unsafe { ffi::heal_bytes_lend(self.at(), &mut span) })?;
        Ok(unsafe { std::slice::from_raw_parts(span.data, span.len) }.to_vec())
    }

    /// Returns the outcome of an exchange.
    pub(crate) fn outcome(&self) -> Result<Outcome, Refused> {
        let (mut number, mut merged, mut clashes) = (0, 0, 0);
        // SAFETY: the handle is owned.
        answer(unsafe { ffi::heal_outcome_number(self.at(), &mut number) })?;
        answer(unsafe { ffi::heal_outcome_merged(self.at(), &mut merged) })?;
        answer(unsafe { ffi::heal_outcome_clashes(self.at(), &mut clashes) })?;
        let clashes = (0..clashes)
            .map(|i| self.clash(i))
            .collect::<Result<_, _>>()?;
        Ok(Outcome {
            number,
            merged,
            withdrawn: [self.withdrawn(SideId::A)?, self.withdrawn(SideId::B)?],
            clashes,
        })
    }

    fn withdrawn(&self, half: SideId) -> Result<Vec<Vec<u8>>, Refused> {
        let mut names = Vec::new();
        let mut found = ffi::Name::default();
        // SAFETY: as in `outcome`.
        let mut next = |i| unsafe {
            match ffi::heal_outcome_withdrawn(self.at(), half as u32, i, &mut found) {
                NO_ROW => Ok(None),
                number => answer(number).map(|()| Some(bytes_of(&found))),
            }
        };
        while let Some(name) = next(names.len())? {
            names.push(name);
        }
        Ok(names)
    }

    fn clash(&self, i: usize) -> Result<Clash, Refused> {
        let mut found = ffi::Clash::default();
        // SAFETY: as in `outcome`.
        answer(unsafe { ffi::heal_outcome_clash(self.at(), i, &mut found) })?;
        let notices = 0..found.notices as usize;
        Ok(Clash {
            name: bytes_of(&found.name),
            first: found.first.into(),
            second: found.second.into(),
            word: found.word,
            verdict: verdict_of(found.verdict),
            keeps: verdict_of(found.keeps),
            first_half: side_of(found.first_half),
            notices: notices
                .map(|n| self.notice(i, n))
                .collect::<Result<_, _>>()?,
        })
    }

    fn notice(&self, i: usize, n: usize) -> Result<Notice, Refused> {
        let mut found = ffi::Notice::default();
        // SAFETY: as in `outcome`.
        answer(unsafe { ffi::heal_outcome_notice(self.at(), i, n, &mut found) })?;
        Ok(found.into())
    }
}

impl Drop for Held {
    fn drop(&mut self) {
        let free = match self.kind {
            Kind::Program => ffi::heal_program_free,
            Kind::Sandbox => ffi::heal_bpf_free,
            Kind::Side => ffi::heal_side_free,
            Kind::Bytes => ffi::heal_bytes_free,
            Kind::Outcome => ffi::heal_outcome_free,
            Kind::Replica => ffi::heal_replica_free,
        };
        // SAFETY: the handle is owned, and of the kind that `free` takes.
        unsafe { free(self.at_mut()) }
    }
}
