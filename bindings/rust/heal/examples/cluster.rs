//! A cluster of four nodes, split into two parts of two, heals. Prints the owner of the name that each node has then.
use heal::{Life, Owner, Refused, Registration, Replica, SideId};

fn start(node: u32) -> Result<Replica, Refused> {
    Replica::start(Life {
        node,
        incarnation: 1,
    })
}

fn main() -> Result<(), Refused> {
    let (mut one, mut two, mut four, mut five) = (start(1)?, start(2)?, start(4)?, start(5)?);

    // Each part has a primary and a backup, which follows the primary and applies its entries.
    two.follow(&one.snapshot()?)?;
    five.follow(&four.snapshot()?)?;
    two.apply(&one.register(b"db", Registration::new(Owner::new(1, 10), 0))?)?;
    five.apply(&four.register(b"db", Registration::new(Owner::new(4, 10), 0))?)?;

    // The primaries meet. The backups know the number of the exchange before it begins.
    let (mut a, mut b) = (one.side(SideId::A)?, four.side(SideId::B)?);
    two.apply(&one.begin(1)?)?;
    five.apply(&four.begin(1)?)?;
    let before = one.state()?.at;
    let (of_a, of_b) = (a.begin(1, 7, 0)?, b.begin(1, 7, 0)?);
    a.hear(&of_b)?;
    b.hear(&of_a)?;
    a.settle()?;
    b.settle()?;
    let (of_a, of_b) = (a.close_list()?, b.close_list()?);
    a.hear_list(&of_b)?;
    b.hear_list(&of_a)?;
    a.finish()?;
    b.finish()?;

    // One of them starts a view with the outcome, and all other nodes follow it.
    one.change(before, &a)?;
    for replica in [&mut two, &mut four, &mut five] {
        replica.follow(&one.snapshot()?)?;
    }

    for (node, replica) in [(1, &one), (2, &two), (4, &four), (5, &five)] {
        if let Some(found) = replica.whereis(b"db")? {
            println!("node {node}: db {}", found.owner);
        }
    }
    Ok(())
}
