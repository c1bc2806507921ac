//! Replicas: the fields of their states, rows and logs, and their refusals; from several threads too.
use heal::{
    log_front, Life, LogFront, Owner, Position, Refusal, Refused, Registration, Replica, SideId,
};
use std::thread;

fn replica(node: u32) -> Replica {
    Replica::start(Life {
        node,
        incarnation: 1,
    })
    .expect("memory")
}

fn names(replica: &Replica) -> Vec<Vec<u8>> {
    let rows = replica.rows().expect("rows");
    rows.into_iter().map(|(name, _)| name).collect()
}

/// The life of a node, and its replica at operation 3 of its second view.
const PRIMARY: Life = Life {
    node: 3,
    incarnation: 7,
};
const AT: Position = Position {
    primary: PRIMARY,
    view: 2,
    op: 3,
};

fn at_operation_3() -> Result<Replica, Refused> {
    let mut replica = Replica::start(PRIMARY)?;
    assert_eq!(replica.state()?.latest, None);
    replica.lead()?;
    replica.register(b"a", Registration::new(Owner::new(3, 1), 5))?;
    replica.begin(9)?;
    replica.set_limit(50)?;
    Ok(replica)
}

#[test]
fn a_state_has_each_field() -> Result<(), Refused> {
    let (primary, mut backup) = (at_operation_3()?, replica(1));
    backup.follow(&primary.snapshot()?)?;
    for (state, is_primary) in [(primary.state()?, true), (backup.state()?, false)] {
        assert_eq!((state.at, state.names, state.limit), (AT, 1, 50));
        assert_eq!((state.latest, state.is_primary), (Some(9), is_primary));
    }
    for id in [SideId::A, SideId::B] {
        assert_eq!(primary.side(id)?.state()?.id, id);
    }
    Ok(())
}

#[test]
fn a_change_reads_each_field_of_the_position() -> Result<(), Refused> {
    let mut replica = at_operation_3()?;
    let side = replica.side(SideId::A)?;
    let mut others = [AT; 4];
    others[0].primary.node = 4;
    others[1].primary.incarnation = 8;
    others[2].view = 1;
    others[3].op = 2;
    for other in others {
        let refused = replica.change(other, &side).expect_err("another position");
        assert_eq!(refused.refusal(), Some(Refusal::Moved));
    }
    replica.change(AT, &side)
}

#[test]
fn rows_and_logs_have_each_message() -> Result<(), Refused> {
    let mut primary = replica(1);
    let snapshot = primary.snapshot()?;
    let registered = |i: u8| {
        (
            vec![b'a' + i],
            Registration::new(Owner::new(1, i.into()), 5),
        )
    };
    let mut log = snapshot.clone();
    let mut fronts = vec![LogFront::Snapshot(snapshot.len())];
    for (name, registration) in (0..3).map(registered) {
        let entry = primary.register(&name, registration)?;
        fronts.push(LogFront::Entry(entry.len()));
        log.extend(entry);
    }
    let (mut backup, mut rest) = (replica(2), &log[..]);
    for front in fronts {
        assert_eq!(log_front(rest)?, front);
        rest = match front {
            LogFront::Snapshot(size) => backup.follow(&rest[..size]).map(|()| &rest[size..])?,
            LogFront::Entry(size) => backup.apply(&rest[..size]).map(|()| &rest[size..])?,
            _ => unreachable!("a whole message"),
        };
    }
    assert_eq!(
        (log_front(rest)?, log_front(&snapshot[..30])?),
        (LogFront::End, LogFront::Cut)
    );
    let rows: Vec<_> = (0..3).map(registered).collect();
    assert_eq!((primary.rows()?, backup.rows()?), (rows.clone(), rows));
    Ok(())
}

#[test]
fn threads_read_one_replica() {
    let mut primary = replica(1);
    for serial in 0..100 {
        let name = format!("name{serial}");
        primary
            .register(name.as_bytes(), Registration::new(Owner::new(1, serial), 1))
            .expect("a new name");
    }
    let at = primary.state().expect("a state").at;
    let primary = &primary;
    thread::scope(|scope| {
        for node in 2..10 {
            scope.spawn(move || {
                for _ in 0..50 {
                    let mut backup = replica(node);
                    let snapshot = primary.snapshot().expect("memory");
                    backup.follow(&snapshot).expect("a snapshot of another");
                    assert_eq!(backup.state().expect("a state").at, at);
                    assert_eq!(names(&backup), names(primary));
                    assert!(primary.whereis(b"name7").expect("a name").is_some());
                    drop(primary.side(SideId::A).expect("few names"));
                }
            });
        }
    });
}

#[test]
fn refusals_have_names() {
    let (mut primary, mut backup) = (replica(1), replica(2));
    backup
        .follow(&primary.snapshot().expect("memory"))
        .expect("a snapshot");
    let lost = primary.begin(1).expect("a new number");
    let next = primary.begin(2).expect("a new number");
    let refusals = [
        backup.begin(3).expect_err("a backup").refusal(),
        backup.apply(&next).expect_err("a gap").refusal(),
        primary.begin(2).expect_err("an old number").refusal(),
        primary.set_limit(0).expect_err("no limit").refusal(),
    ];
    assert_eq!(
        refusals,
        [
            Refusal::NotPrimary,
            Refusal::Gap,
            Refusal::StaleNumber,
            Refusal::OutOfRange
        ]
        .map(Some)
    );
    backup.apply(&lost).expect("the next entry");
    let mut changed = next.clone();
    *changed.last_mut().expect("a byte") ^= 1;
    let refused = backup.apply(&changed).expect_err("a changed byte");
    assert_eq!(refused.refusal(), Some(Refusal::Checksum));
    assert!(refused.to_string().contains("checksum"));
    let mut longer = next.clone();
    longer[15] ^= 1;
    let refused = log_front(&longer).expect_err("a changed length");
    assert_eq!(refused.refusal(), Some(Refusal::Checksum));
    backup.apply(&next).expect("the next entry");
}
