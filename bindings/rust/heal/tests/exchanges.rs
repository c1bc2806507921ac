//! Programs, refusals and whole exchanges through the C library.
use heal::{
    record, version, words_of, Facts, Missing, Notice, Outcome, Owner, Program, Refused,
    Registration, Resolver, Sandbox, Side, SideId, Verdict,
};
use std::time::{Duration, Instant};

/// The registration with the later stamp keeps the name, or the first if the stamps are equal.
const LATER_STAMP: [u8; 48] = [
    0x79, 0x12, 0x38, 0, 0, 0, 0, 0, // ldxdw r2, [r1+56], the first stamp
    0x79, 0x13, 0x60, 0, 0, 0, 0, 0, // ldxdw r3, [r1+96], the second stamp
    0xb7, 0x00, 0x00, 0, 1, 0, 0, 0, // mov64 r0, 1
    0x3d, 0x32, 0x01, 0, 0, 0, 0, 0, // jge r2, r3, +1
    0xb7, 0x00, 0x00, 0, 2, 0, 0, 0, // mov64 r0, 2
    0x95, 0x00, 0x00, 0, 0, 0, 0, 0, // exit
];

fn owned(node: u32, serial: u32, stamp: u64) -> Registration {
    Registration::new(Owner::new(node, serial), stamp)
}

fn refused<T: std::fmt::Debug>(result: Result<T, Refused>) -> u32 {
    result.expect_err("a refusal").number
}

/// Two halves that registered `cache`, `db` and `mail` while the link was down; B also has `web`.
fn split() -> Result<[Side; 2], Refused> {
    let mut halves = [Side::new(SideId::A)?, Side::new(SideId::B)?];
    for (half, node) in halves.iter_mut().zip(1..) {
        let later = Resolver::Program(half.upload(&LATER_STAMP)?);
        let stamp = 100 * u64::from(node);
        half.register(b"cache", owned(node, 1, stamp))?;
        half.register(
            b"db",
            Registration {
                resolver: later,
                ..owned(node, 2, stamp)
            },
        )?;
        half.register(b"mail", owned(node, 3, stamp))?;
    }
    halves[1].register(b"web", owned(2, 4, 200))?;
    Ok(halves)
}

/// Heals two halves, each of which withdraws a name or none.
fn heal(
    [a, b]: &mut [Side; 2],
    [number, seed]: [u64; 2],
    gone: [Option<&str>; 2],
) -> Result<[Outcome; 2], Refused> {
    let (offer_a, offer_b) = (a.begin(number, seed, 10)?, b.begin(number, seed, 20)?);
    a.hear(&offer_b)?;
    b.hear(&offer_a)?;
    a.settle()?;
    b.settle()?;
    for (side, name) in [&mut *a, &mut *b].into_iter().zip(gone) {
        name.map_or(Ok(()), |it| side.withdraw(it.as_bytes()))?;
    }
    let (list_a, list_b) = (a.close_list()?, b.close_list()?);
    a.hear_list(&list_b)?;
    b.hear_list(&list_a)?;
    Ok([a.finish()?, b.finish()?])
}

#[test]
fn both_halves_have_one_table() -> Result<(), Refused> {
    let mut halves = split()?;
    let [outcome, same] = heal(&mut halves, [1, 0], [Some("mail"), None])?;
    assert_eq!(outcome, same);
    assert_eq!(outcome.withdrawn, [vec![b"mail".to_vec()], vec![]]);
    let [a, b] = &halves;
    assert_eq!(a.rows()?, b.rows()?);
    assert_eq!(outcome.merged, a.rows()?.len());
    assert_eq!(
        a.whereis(b"db")?.map(|it| it.owner),
        Some(Owner { node: 2, serial: 2 })
    );
    let (cache, db) = match outcome.clashes.as_slice() {
        [cache, db, _mail] => (cache, db),
        _ => panic!("three clashes"),
    };
    // A built-in resolver follows the lowest bit of the word, and the loser exits.
    let (kept, loser) = match cache.word % 2 {
        0 => (Verdict::First, Owner { node: 2, serial: 1 }),
        _ => (Verdict::Second, Owner { node: 1, serial: 1 }),
    };
    assert_eq!(
        (cache.verdict, &cache.notices),
        (kept, &vec![Notice::Exit(loser)])
    );
    assert_eq!((db.verdict, db.notices.len()), (Verdict::Second, 0));
    Ok(())
}

/// A registration each of whose fields differs from the others, and from those of other numbers.
fn distinct(number: u8, resolver: Resolver) -> Registration {
    let n = u64::from(number);
    Registration {
        owner: Owner::new(0x100 + u32::from(number), 0x200 + u32::from(number)),
        stamp: 0x300 + n,
        weight: 0x400 + n,
        extra: [0; 16].map(|_: u8| number),
        resolver,
    }
}

/// The fields of a registration up to its resolver, as messages and records have them.
fn fields(of: &Registration) -> Vec<u8> {
    let numbers = [of.stamp.to_le_bytes(), of.weight.to_le_bytes()].concat();
    let owner = [of.owner.node.to_le_bytes(), of.owner.serial.to_le_bytes()].concat();
    [owner, numbers, of.extra.to_vec()].concat()
}

/// The four kinds of resolvers, for names `a` to `d` of a side that has the program.
fn resolvers(side: &mut Side) -> Result<[Resolver; 4], Refused> {
    let later = Resolver::Program(side.upload(&LATER_STAMP)?);
    Ok([Resolver::Exit, Resolver::Notify, Resolver::NotifyAll, later])
}

#[test]
fn registrations_have_each_field() -> Result<(), Refused> {
    let mut side = Side::with_limit(SideId::B, 4)?;
    let mut rows = Vec::new();
    for (i, resolver) in (0..).zip(resolvers(&mut side)?) {
        rows.push((vec![b'a' + i], distinct(i, resolver)));
        side.register(&rows[usize::from(i)].0, rows[usize::from(i)].1)?;
    }
    assert_eq!(
        (side.rows()?, side.live_rows()?),
        (rows.clone(), rows.clone())
    );
    // The offer of docs/MESSAGES.md; its fourth row has the program with its code.
    let mut offer = b"HEALXC\x01\x01\x01".to_vec();
    offer.extend([5_u64, 6, 7].map(u64::to_le_bytes).concat());
    offer.extend(4_u32.to_le_bytes());
    for ((name, registration), kind) in rows.iter().zip([0, 1, 2, 4]) {
        assert_eq!(side.whereis(name)?, Some(*registration));
        offer.extend([&[1], &name[..], &fields(registration), &[kind]].concat());
    }
    offer.extend([&48_u32.to_le_bytes()[..], &LATER_STAMP].concat());
    assert_eq!(side.begin(5, 6, 7)?, offer);
    Ok(())
}

/// The registrations of a name in both halves, the lesser owner's first: it has the earlier stamp.
fn both(name: u8, resolver: Resolver) -> [Registration; 2] {
    let number = 2 * (name - b'a');
    [number, number + 1].map(|it| distinct(it, resolver))
}

/// Two halves with the names `a` to `e`, of which A registered the first of `a`, `c` and `e`, and B that of `b` and `d`. A also has `f`.
/// With the resolvers of these five names.
fn clashing() -> Result<([Side; 2], Vec<Resolver>), Refused> {
    let mut halves = [Side::new(SideId::A)?, Side::new(SideId::B)?];
    resolvers(&mut halves[0])?;
    let mut kinds = resolvers(&mut halves[1])?.to_vec();
    kinds.push(Resolver::Exit);
    for (name, kind) in (b'a'..).zip(&kinds) {
        let [first, second] = both(name, *kind);
        let of_first = usize::from(name - b'a') % 2;
        halves[of_first].register(&[name], first)?;
        halves[1 - of_first].register(&[name], second)?;
    }
    halves[0].register(b"f", owned(1, 1, 1))?;
    Ok((halves, kinds))
}

#[test]
fn clashes_have_each_field() -> Result<(), Refused> {
    use Verdict::{First, Neither, Second};
    let (mut halves, kinds) = clashing()?;
    let [outcome, _] = heal(&mut halves, [3, 7], [Some("f"), Some("e")])?;
    assert_eq!((outcome.number, outcome.merged), (3, 3));
    assert_eq!(outcome.withdrawn, [[b"f".to_vec()], [b"e".to_vec()]]);
    let owners = |name| both(name, kinds[usize::from(name - b'a')]).map(|it| it.owner);
    let ([loser, _], [_, later], [x, y]) = (owners(b'a'), owners(b'b'), owners(b'c'));
    let neither = vec![Notice::ConflictWith(x, y), Notice::ConflictWith(y, x)];
    // A built-in resolver keeps the second at an odd word. B withdrew the winner of `e`.
    let rows = [
        (7, SideId::A, [Second, Second], vec![Notice::Exit(loser)]),
        (8, SideId::B, [First, First], vec![Notice::Conflict(later)]),
        (9, SideId::A, [Neither, Neither], neither),
        (10, SideId::B, [Second, Second], vec![]),
        (11, SideId::A, [Second, Neither], vec![]),
    ];
    assert_eq!(outcome.clashes.len(), rows.len());
    for (((name, row), it), kind) in (b'a'..).zip(rows).zip(outcome.clashes).zip(kinds) {
        assert_eq!(
            (it.name, [it.first, it.second]),
            (vec![name], both(name, kind))
        );
        assert_eq!(
            (it.word, it.first_half, [it.verdict, it.keeps], it.notices),
            row
        );
    }
    Ok(())
}

#[test]
fn a_record_has_each_field() -> Result<(), Refused> {
    let both = [1, 2].map(|number| distinct(number, Resolver::Exit));
    let facts = [(3, 4), (5, 6)].map(|(size, uptime)| Facts { size, uptime });
    // The layout of resolvers/record.h.
    let mut expected = [&2_u32.to_le_bytes()[..], &[0; 4], b"db", &[0; 30]].concat();
    expected.extend(7_u64.to_le_bytes());
    expected.extend([fields(&both[0]), fields(&both[1])].concat());
    expected.extend([3_u64, 4, 5, 6].map(u64::to_le_bytes).concat());
    assert_eq!(record(b"db", both, 7, facts)?.to_vec(), expected);
    Ok(())
}

#[test]
fn a_sandbox_runs_on_contexts_of_its_length() -> Result<(), Refused> {
    // r0 = the last of eight bytes; exit
    let code = [0x71, 0x10, 7, 0, 0, 0, 0, 0, 0x95, 0, 0, 0, 0, 0, 0, 0];
    let mut sandbox = Sandbox::load(&code, 8)?;
    let ended = sandbox.run(&[0, 0, 0, 0, 0, 0, 0, 42])?;
    assert_eq!((ended.r0, ended.steps), (42, 2));
    assert_eq!(
        [0, 7, 9].map(|len| refused(sandbox.run(&vec![0; len]))),
        [93; 3]
    );
    assert_eq!(refused(Sandbox::load(&code, 65_536)), 92);
    Ok(())
}

#[test]
fn programs_judge_records() -> Result<(), Refused> {
    let program = Program::load(&LATER_STAMP)?;
    let facts = [Facts { size: 1, uptime: 2 }; 2];
    let later = program.judge(&record(b"db", [owned(1, 1, 5), owned(2, 1, 9)], 7, facts)?)?;
    assert_eq!((later.r0, later.steps), (2, 6));
    let earlier = program.judge(&record(b"db", [owned(1, 1, 9), owned(2, 1, 5)], 7, facts)?)?;
    assert_eq!((earlier.r0, earlier.steps), (1, 5));
    assert_eq!(program.id()?, Side::new(SideId::A)?.upload(&LATER_STAMP)?);
    Ok(())
}

#[test]
fn refusals_have_numbers_and_words() -> Result<(), Refused> {
    assert_eq!(words_of(1000), "unknown refusal");
    let unset = Program::load(&LATER_STAMP[40..]).expect_err("R0 is unset");
    assert_eq!((unset.number, unset.slot), (15, Some(0)));
    assert!(unset.to_string().starts_with("refused 15 at slot 0: "));
    let mut side = Side::new(SideId::A)?;
    assert_eq!(refused(side.register(b"", owned(1, 1, 1))), 44);
    assert_eq!(refused(side.unregister(b"db")), 31);
    assert_eq!(refused(side.settle()), 34);
    assert_eq!(refused(side.finish()), 34);
    assert_eq!(refused(side.upload(&[])), 1);
    let offer = side.begin(1, 0, 0)?;
    assert_eq!(refused(side.hear(&offer)), 46);
    assert_eq!(refused(side.hear(&offer[1..])), 71);
    assert_eq!(refused(side.renew()), 33);
    side.abandon()?;
    side.renew()?;
    assert_eq!(refused(side.begin(1, 0, 0)), 35);
    assert!(side.rows()?.is_empty() && side.events()? <= 2);
    Ok(())
}

#[test]
fn programs_are_forgotten() -> Result<(), Refused> {
    let mut side = Side::new(SideId::A)?;
    let id = side.upload(&LATER_STAMP)?;
    assert_eq!(side.programs()?, [id]);
    assert_eq!(side.code(id)?, LATER_STAMP);
    let resolver = Resolver::Program(id);
    side.register(
        b"db",
        Registration {
            resolver,
            ..owned(1, 1, 1)
        },
    )?;
    assert_eq!(refused(side.forget(id)), 94);
    side.unregister(b"db")?;
    side.forget(id)?;
    assert_eq!((side.programs()?.len(), refused(side.forget(id))), (0, 41));
    assert_eq!(refused(side.code(id)), 41);
    Ok(())
}

#[test]
fn a_side_gives_up() -> Result<(), Refused> {
    let [mut side, _] = split()?;
    side.begin(1, 0, 0)?;
    side.withdraw(b"mail")?;
    side.give_up()?;
    assert_eq!(refused(side.abandon()), 34);
    assert_eq!((side.rows()?.len(), side.whereis(b"mail")?), (2, None));
    assert_eq!(side.events()?, 4);
    side.give_up()?;
    assert_eq!((side.rows()?.len(), refused(side.begin(1, 0, 0))), (2, 35));
    Ok(())
}

/// The first thing that the open exchange of a side lacks.
fn missing(side: &Side) -> Result<Option<Missing>, Refused> {
    Ok(side.state()?.open.expect("an open exchange").missing)
}

#[test]
fn a_side_states_what_it_knows() -> Result<(), Refused> {
    let [mut a, mut b] = split()?;
    let idle = a.state()?;
    assert_eq!((idle.id, idle.latest, idle.open), (SideId::A, None, None));
    a.begin(3, 0, 10)?;
    let offer = b.begin(3, 0, 20)?;
    assert_eq!(missing(&a)?, Some(Missing::Offer));
    assert_eq!(refused(a.finish()), 39);
    a.hear(&offer)?;
    assert_eq!(missing(&a)?, Some(Missing::Ruling(0)));
    a.settle()?;
    assert_eq!(missing(&a)?, Some(Missing::OwnList));
    a.close_list()?;
    let state = a.state()?;
    let open = state.open.expect("an open exchange");
    assert_eq!((state.latest, open.number), (Some(3), 3));
    assert_eq!(open.missing, Some(Missing::List));
    assert!(open.has_heard && open.has_closed && !open.has_heard_list);
    let of_b = b.state()?;
    let open = of_b.open.expect("an open exchange");
    assert_eq!(of_b.id, SideId::B);
    assert!(!open.has_heard && !open.has_closed && !open.has_heard_list);
    let list = b.close_list()?;
    let open = b.state()?.open.expect("an open exchange");
    assert!(!open.has_heard && open.has_closed && !open.has_heard_list);
    a.hear_list(&list)?;
    assert_eq!(missing(&a)?, None);
    a.finish()?;
    assert_eq!((a.state()?.latest, a.state()?.open), (Some(3), None));
    Ok(())
}

#[test]
fn withdrawn_names_are_listed_apart() -> Result<(), Refused> {
    let serials = |rows: Vec<(Vec<u8>, Registration)>| -> Vec<(Vec<u8>, u32)> {
        let of_owner = |(name, found): (Vec<u8>, Registration)| (name, found.owner.serial);
        rows.into_iter().map(of_owner).collect()
    };
    let all = [
        (b"cache".to_vec(), 1),
        (b"db".to_vec(), 2),
        (b"mail".to_vec(), 3),
    ];
    let [mut side, _] = split()?;
    assert!(side.withdrawn()?.is_empty());
    assert_eq!(serials(side.live_rows()?), all);
    side.begin(1, 0, 0)?;
    side.withdraw(b"mail")?;
    assert_eq!(serials(side.live_rows()?), all[..2]);
    side.withdraw(b"cache")?;
    assert_eq!(side.withdrawn()?, [&b"mail"[..], b"cache"]);
    assert_eq!(serials(side.rows()?), all);
    assert_eq!(serials(side.live_rows()?), all[1..2]);
    side.abandon()?;
    assert!(side.withdrawn()?.is_empty());
    assert_eq!(serials(side.rows()?), all[1..2]);
    Ok(())
}

#[test]
fn the_library_has_the_version_of_the_crate() {
    let (major, minor, patch) = version();
    assert_eq!(
        format!("{major}.{minor}.{patch}"),
        env!("CARGO_PKG_VERSION")
    );
}

#[test]
fn sides_move_between_threads() -> Result<(), Refused> {
    let mut side = Side::new(SideId::B)?;
    let side = std::thread::spawn(move || side.register(b"db", owned(1, 1, 1)).map(|()| side));
    let side = side.join().expect("no panic")?;
    assert_eq!(side.rows()?.len(), 1);
    Ok(())
}

/// Runs `read` in eight threads at once, again and again for two seconds.
fn in_eight_threads(read: impl Fn() -> Result<(), Refused> + Sync) {
    let end = Instant::now() + Duration::from_secs(2);
    std::thread::scope(|scope| {
        for _ in 0..8 {
            scope.spawn(|| {
                while Instant::now() < end {
                    read().expect("no refusal");
                }
            });
        }
    });
}

#[test]
fn eight_threads_judge_with_one_program() -> Result<(), Refused> {
    let program = Program::load(&LATER_STAMP)?;
    let id = program.id()?;
    let facts = [Facts { size: 1, uptime: 2 }; 2];
    let later = record(b"db", [owned(1, 1, 5), owned(2, 1, 9)], 7, facts)?;
    let earlier = record(b"db", [owned(1, 1, 9), owned(2, 1, 5)], 7, facts)?;
    in_eight_threads(|| {
        assert_eq!(
            (program.judge(&later)?.r0, program.judge(&earlier)?.r0),
            (2, 1)
        );
        assert_eq!(program.id()?, id);
        Ok(())
    });
    Ok(())
}

#[test]
fn eight_threads_read_one_side() -> Result<(), Refused> {
    let [side, _] = split()?;
    in_eight_threads(|| {
        for (name, serial) in [(&b"cache"[..], 1), (b"db", 2), (b"mail", 3)] {
            let found = side.whereis(name)?.expect("a registered name");
            assert_eq!(found.owner, Owner::new(1, serial));
        }
        assert_eq!(
            (side.whereis(b"web")?, side.rows()?.len(), side.events()?),
            (None, 3, 3)
        );
        Ok(())
    });
    Ok(())
}

#[test]
fn a_side_has_the_names_of_its_limit() -> Result<(), Refused> {
    let mut side = Side::with_limit(SideId::A, 1)?;
    side.register(b"x", owned(1, 1, 5))?;
    assert_eq!(refused(side.register(b"y", owned(1, 2, 5))), 32);
    for names in [0, 1_048_577, usize::MAX] {
        assert_eq!(refused(Side::with_limit(SideId::A, names)), 92);
    }
    Side::with_limit(SideId::B, 1_048_576)?;
    Ok(())
}
