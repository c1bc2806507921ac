//! Programs for contexts of any length, without the registry.
use crate::handle::{Held, Kind};
use crate::{answer, answer_at, Ended, Refused};
use heal_sys as ffi;

/// A verified program for contexts of one length, with a memory for its runs.
///
/// ```
/// use heal::Sandbox;
///
/// // r0 = the last of eight bytes; exit
/// let code = [0x71, 0x10, 7, 0, 0, 0, 0, 0, 0x95, 0, 0, 0, 0, 0, 0, 0];
/// let mut sandbox = Sandbox::load(&code, 8)?;
/// assert_eq!(sandbox.run(&[0, 0, 0, 0, 0, 0, 0, 42])?.r0, 42);
/// // Seven bytes have no eighth.
/// assert_eq!(Sandbox::load(&code, 7).expect_err("it leaves the context").number, 21);
/// # Ok::<(), heal::Refused>(())
/// ```
#[derive(Debug)]
pub struct Sandbox {
    held: Held,
}

impl Sandbox {
    /// Reads bytes as a program (RFC 9669) for contexts of this length, from 0 to 65,535 bytes, and verifies it.
    pub fn load(code: &[u8], context_len: u32) -> Result<Sandbox, Refused> {
        let mut held = Held::empty(Kind::Sandbox);
        let mut slot = 0;
        // SAFETY: the code has `len` bytes; the handle is empty and owned.
        let number = unsafe {
            ffi::heal_bpf_load(
                code.as_ptr(),
                code.len(),
                context_len,
                held.at_mut(),
                &mut slot,
            )
        };
        answer_at(number, slot)?;
        Ok(Sandbox { held })
    }

    /// Runs the program on a context of its length. Returns 93 for one of another length.
    pub fn run(&mut self, context: &[u8]) -> Result<Ended, Refused> {
        let mut ended = ffi::Ended::default();
        // SAFETY: the context has `len` bytes; the handle is owned, and nobody else uses it.
        answer(unsafe {
            ffi::heal_bpf_run(
                self.held.at_mut(),
                context.as_ptr(),
                context.len(),
                &mut ended,
            )
        })?;
        Ok(Ended {
            r0: ended.r0,
            steps: ended.steps,
        })
    }
}
