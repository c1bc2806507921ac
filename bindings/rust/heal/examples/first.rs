//! Two halves that registered one name for different owners heal their split.
use heal::{Owner, Refused, Registration, Side, SideId};

fn main() -> Result<(), Refused> {
    let (mut a, mut b) = (Side::new(SideId::A)?, Side::new(SideId::B)?);
    a.register(b"db", Registration::new(Owner::new(1, 10), 0))?;
    b.register(b"db", Registration::new(Owner::new(2, 20), 0))?;

    let (of_a, of_b) = (a.begin(1, 7, 0)?, b.begin(1, 7, 0)?);
    a.hear(&of_b)?;
    b.hear(&of_a)?;
    a.settle()?;
    b.settle()?;
    let (of_a, of_b) = (a.close_list()?, b.close_list()?);
    a.hear_list(&of_b)?;
    b.hear_list(&of_a)?;
    a.finish()?;
    b.finish()?;

    for side in [&mut a, &mut b] {
        if let Some(found) = side.whereis(b"db")? {
            println!("db {}", found.owner);
        }
    }
    Ok(())
}
