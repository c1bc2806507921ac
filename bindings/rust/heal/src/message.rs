//! Messages of an exchange, read without a side.
use crate::types::side_of;
use crate::{answer, answer_at, Refused, SideId};
use heal_sys as ffi;

/// The first fields of a message.
#[derive(Clone, Copy, Debug, PartialEq, Eq)]
#[non_exhaustive]
pub struct Head {
    pub kind: MessageKind,
    /// The sender.
    pub side: SideId,
    /// The number of the exchange.
    pub number: u64,
}

/// The kind of a message.
#[derive(Clone, Copy, Debug, PartialEq, Eq)]
pub enum MessageKind {
    /// What `Side::begin` returns.
    Offer { seed: u64 },
    /// What `Side::close_list` returns.
    List,
}

/// The first fault of a message.
#[derive(Clone, Copy, Debug, PartialEq, Eq)]
#[non_exhaustive]
pub struct Fault {
    /// The number of the refusal: 70 to 82.
    pub number: u32,
    pub place: Place,
    /// The refusal of the code of a row, for 81.
    pub code: Option<Refused>,
}

/// Where the fault of a message is. Both count from 0.
#[derive(Clone, Copy, Debug, PartialEq, Eq)]
pub enum Place {
    /// The byte where the faulty field begins.
    Byte(usize),
    /// The faulty row of an offer, or the faulty name of a list.
    Item(usize),
}

/// Returns the first fields of a message, without looking behind them. Bytes that end within them are refused 70, and others that
/// begin no message 71, 74 or 82.
///
/// ```
/// use heal::{peek, MessageKind, Side, SideId};
///
/// let offer = Side::new(SideId::A)?.begin(1, 7, 0)?;
/// let head = peek(&offer)?;
/// assert_eq!((head.side, head.number), (SideId::A, 1));
/// assert_eq!(head.kind, MessageKind::Offer { seed: 7 });
/// # Ok::<(), heal::Refused>(())
/// ```
pub fn peek(message: &[u8]) -> Result<Head, Refused> {
    let mut head = ffi::Head::default();
    // SAFETY: the message has `len` bytes, and `head` is a live value of its type.
    answer(unsafe { ffi::heal_message_peek(message.as_ptr(), message.len(), &mut head) })?;
    Ok(Head {
        kind: match head.kind {
            1 => MessageKind::Offer { seed: head.seed },
            _ => MessageKind::List,
        },
        side: side_of(head.side),
        number: head.number,
    })
}

/// Returns the first fault of bytes that are read as an offer, or `None`. Takes as long as hearing it. Only 90 is an error.
pub fn offer_fault(offer: &[u8]) -> Result<Option<Fault>, Refused> {
    fault(ffi::heal_offer_fault, offer)
}

/// Returns the first fault of bytes that are read as a list of withdrawn names, or `None`. Only 90 is an error.
pub fn list_fault(list: &[u8]) -> Result<Option<Fault>, Refused> {
    fault(ffi::heal_list_fault, list)
}

fn fault(
    read: unsafe extern "C" fn(*const u8, usize, *mut ffi::Fault) -> u32,
    message: &[u8],
) -> Result<Option<Fault>, Refused> {
    let mut found = ffi::Fault::default();
    // SAFETY: the message has `len` bytes, and `found` is a live value of its type.
    let number = unsafe { read(message.as_ptr(), message.len(), &mut found) };
    let place = match found.place {
        1 => Place::Byte(found.at as usize),
        2 => Place::Item(found.at as usize),
        // There is no fault, or no memory to look for one.
        _ => return answer(number).map(|()| None),
    };
    Ok(Some(Fault {
        number,
        place,
        code: answer_at(found.reason, found.slot).err(),
    }))
}
