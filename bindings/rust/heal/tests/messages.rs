//! The heads and the faults of messages, on the two examples of docs/MESSAGES.md.
use heal::{list_fault, offer_fault, peek, MessageKind, Place, Refused, SideId};

/// The list in which side B withdraws `db` and then `ab`.
const LIST: [u8; 27] = *b"HEALXC\x01\x02\x01\x04\0\0\0\0\0\0\0\x02\0\0\0\x02db\x02ab";

/// The offer of side A for exchange 4, with seed 77, uptime 1,000, and `db` with a program.
fn offer() -> Vec<u8> {
    let mut offer = b"HEALXC\x01\x01\0".to_vec();
    for number in [4_u64, 77, 1000] {
        offer.extend(number.to_le_bytes());
    }
    offer.extend(b"\x01\0\0\0\x02db\x07\0\0\0\x01\0\0\0");
    offer.extend([0; 32]);
    offer.extend(b"\x04\x10\0\0\0");
    offer.extend([0xb7, 0, 0, 0, 1, 0, 0, 0]);
    offer.extend([0x95, 0, 0, 0, 0, 0, 0, 0]);
    offer
}

/// The message with these bytes at this place.
fn with(message: &[u8], at: usize, bytes: &[u8]) -> Vec<u8> {
    let mut changed = message.to_vec();
    changed[at..at + bytes.len()].copy_from_slice(bytes);
    changed
}

#[test]
fn heads_are_read_alone() -> Result<(), Refused> {
    let of_offer = peek(&offer()[..25])?;
    assert_eq!(of_offer.kind, MessageKind::Offer { seed: 77 });
    assert_eq!((of_offer.side, of_offer.number), (SideId::A, 4));
    let of_list = peek(&LIST[..17])?;
    assert_eq!(of_list.kind, MessageKind::List);
    assert_eq!((of_list.side, of_list.number), (SideId::B, 4));
    let refusals = [
        (peek(&offer()[..24]), 70),
        (peek(&LIST[..16]), 70),
        (peek(&[0; 25]), 71),
        (peek(&with(&LIST, 8, &[2])), 74),
        (peek(&with(&LIST, 6, &[2])), 82),
    ];
    for (head, number) in refusals {
        assert_eq!(head.expect_err("a refusal").number, number);
    }
    Ok(())
}

#[test]
fn faults_have_their_number_and_place() -> Result<(), Refused> {
    let offer = offer();
    assert_eq!((offer_fault(&offer)?, list_fault(&LIST)?), (None, None));
    let mut longer = offer.clone();
    longer.push(0);
    let mut unknown = with(&offer, 80, &[3]);
    unknown.resize(81 + 32, 0);
    let faults = [
        (list_fault(&[])?, 70, Place::Byte(0)),
        (offer_fault(&offer[..36])?, 70, Place::Byte(33)),
        (offer_fault(&LIST)?, 71, Place::Byte(0)),
        (list_fault(&offer)?, 71, Place::Byte(0)),
        (offer_fault(&longer)?, 72, Place::Byte(101)),
        (
            offer_fault(&with(&offer, 33, &[255; 4]))?,
            73,
            Place::Byte(33),
        ),
        (offer_fault(&with(&offer, 8, &[2]))?, 74, Place::Byte(8)),
        (list_fault(&with(&LIST, 25, b" "))?, 75, Place::Byte(24)),
        (offer_fault(&with(&offer, 80, &[5]))?, 76, Place::Byte(80)),
        (list_fault(&with(&LIST, 25, b"db"))?, 77, Place::Item(1)),
        (offer_fault(&unknown)?, 79, Place::Item(0)),
        (list_fault(&with(&LIST, 6, &[2]))?, 82, Place::Byte(0)),
    ];
    for (fault, number, place) in faults {
        let fault = fault.expect("a fault");
        assert_eq!((fault.number, fault.place), (number, place));
        assert_eq!(fault.code, None);
    }
    Ok(())
}

#[test]
fn a_fault_of_code_has_the_refusal_of_the_verifier() -> Result<(), Refused> {
    // `mov64 r0, 0` in place of `exit`: the last instruction neither exits nor jumps.
    let fault = offer_fault(&with(&offer(), 93, &[0xb7]))?.expect("a fault");
    assert_eq!((fault.number, fault.place), (81, Place::Item(0)));
    let code = fault.code.expect("the refusal of the code");
    assert_eq!((code.number, code.slot), (13, Some(1)));
    Ok(())
}
