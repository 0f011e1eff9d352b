//! The unproved store held to the implementation of `tests/reference`: replies and logs, call by call.
use bench::{script as fast_script, store as fast};
use calls::{Call, Command};
use reference::generate::{call, geometry, most, naming, record, script, Dice};
use reference::log::bytes_of;
use reference::script::run;
use reference::store::{Geometry, Store};

fn agree_on<'n>(unproved: &mut fast::Store, reference: &mut Store, c: impl Into<Command<'n>>, seed: u64) {
    let c = c.into();
    let reply = unproved.call(c);
    assert_eq!(unproved.result(reply), reference.call(c), "seed {seed}: {c:?}");
    assert!(unproved.log_bytes() == bytes_of(&reference.log), "seed {seed}: the log after {c:?}");
    assert_eq!(unproved.name_count(), reference.names.len(), "seed {seed}: the names after {c:?}");
    assert_eq!(unproved.queued_blocks(), reference.queue.len(), "seed {seed}: the queue after {c:?}");
}

/// Each call comes after a Q, that of a D's record if it is a D. In every other store one seal in four comes after a K of its record, and some other
/// calls after a K of any. In one of three some calls come after one with a name, and names are many in half of them.
fn agree(unproved: &mut fast::Store, seed: u64) {
    let mut d = Dice::new(seed);
    let six = geometry(&mut d);
    let mut reference = Store::new(Geometry::new(six).expect("inside the limits"));
    unproved.start(fast::Geometry::new(six).expect("inside the limits"));
    let mut grow = true;
    for _ in 0..600 {
        grow ^= d.below(40) == 0;
        let c = call(&mut d, &six, &reference.numbers(), grow);
        let any = record(&mut d, &reference.numbers());
        agree_on(unproved, &mut reference, Call::Estimate(if let Call::Delete(r) = c { r } else { any }), seed);
        let (r, often) = if let Call::Seal(r) = c { (r, 4) } else { (any, 30) };
        if seed.is_multiple_of(2) && d.below(often) == 0 {
            agree_on(unproved, &mut reference, Call::Retain(r, most(&mut d)), seed);
        }
        if seed.is_multiple_of(3) && d.below(4) == 0 {
            let on = if let Call::Seal(r) | Call::Delete(r) | Call::Fork(r) = c { r } else { any };
            let next = naming(&mut d, &reference, on, if seed.is_multiple_of(2) { 2 } else { 12 });
            agree_on(unproved, &mut reference, next, seed);
        }
        agree_on(unproved, &mut reference, c, seed);
    }
}

/// Runs something with the unproved store, which is too large for a test's own thread.
fn with_store(f: impl FnOnce(&mut fast::Store) + Send + 'static) {
    let all = || {
        let six = fast::Geometry::new([1, 1, 1, 1, 1, 4]).expect("inside the limits");
        f(&mut Box::new(fast::Store::new(six)));
    };
    let thread = std::thread::Builder::new().stack_size(16 << 20).spawn(all).expect("a thread starts");
    thread.join().expect("no difference");
}

#[test]
fn replies_and_logs_agree() {
    with_store(|unproved| (1..=1000).for_each(|seed| agree(unproved, seed)));
}

/// So many blocks are queued, one record's after another's, that the queue moves again and again, with some of it left each time.
#[test]
fn queue_moves() {
    with_store(|unproved| {
        let six = [2, 1024, 256, 4, 64, 8192];
        let mut reference = Store::new(Geometry::new(six).expect("inside the limits"));
        unproved.start(fast::Geometry::new(six).expect("inside the limits"));
        for r in 1..=40 {
            agree_on(unproved, &mut reference, Call::Begin, 0);
            (0..256).for_each(|page| agree_on(unproved, &mut reference, Call::Write(r, page, page % 3), 0));
            agree_on(unproved, &mut reference, Call::Delete(r), 0);
            let turns = if reference.queue.len() > 1024 { 5 } else { 3 };
            (0..turns).for_each(|_| agree_on(unproved, &mut reference, Call::Reclaim(64), 0));
            agree_on(unproved, &mut reference, Call::Compress, 0);
        }
        assert!(unproved.queued_blocks() > 256, "the queue is long");
    });
}

/// The replies to whole scripts, with their bad lines and names of any bytes.
#[test]
fn scripts_agree() {
    with_store(|unproved| {
        let mut out = vec![0; 16 << 20];
        for seed in 1..=300 {
            let mut text = script(seed);
            text.truncate(65_536);
            let used = fast_script::run(unproved, &text, &mut out);
            assert!(out[..used] == run(&text), "seed {seed}: the replies differ");
        }
    });
}
