//! What scripts made from seeds reach: how many of the scripts, and how many of their lines.
use calls::{Call, Command, Naming};
use reference::store::{Reply, Store, LETTERS, NAMES};
use reference::{generate, script};
use std::collections::{BTreeMap, BTreeSet};
use std::process::exit;

/// How many bases lie below a record.
fn depth(store: &Store, r: u32) -> usize {
    let base = store.lines[store.line_of(r)].base;
    if base == 0 {
        0
    } else {
        1 + depth(store, base)
    }
}

fn dead(store: &Store, r: u32) -> usize {
    store.records[&r].dead.values().map(|shard| shard.len()).sum()
}

type Reached = Vec<(bool, &'static str)>;

/// What there was before a call.
#[derive(Default)]
struct Before {
    /// the call before, if it had no name
    call: Option<Call>,
    /// the last two calls that were done, Qs passed over
    done: [Option<Call>; 2],
    records: BTreeSet<u32>,
    /// the last records of all lines, and the windows of those
    lasts: BTreeMap<u32, u32>,
    queue: Vec<u32>,
    /// those of its blocks that a D put there
    by_delete: BTreeSet<u32>,
    /// what it was at the last barrier
    settled: Vec<u32>,
    waiting: BTreeSet<u32>,
    /// the blocks that waited at some time
    waited: BTreeSet<u32>,
}

impl Before {
    /// After a line: a store line, if accepted, begins a store in which no block ever waited.
    fn go_on(&mut self, store: &Store, call: Option<Command>, reply: &Reply) {
        if call.is_none() && reply.is_ok() {
            *self = Before::default();
        }
        self.call = if let Some(Command::Unnamed(c)) = call { Some(c) } else { None };
        if reply.is_ok() {
            self.go_on_done(store);
        }
        self.records = store.records.keys().copied().collect();
        self.lasts = store.lines.iter().map(|line| (line.records[line.records.len() - 1], line.window)).collect();
        self.waited.extend(&store.waiting);
        self.waiting = store.waiting.clone();
    }

    /// After a call that was done. The queue is as it was before that.
    fn go_on_done(&mut self, store: &Store) {
        match self.call {
            Some(Call::Delete(_)) => self.by_delete.extend(&store.queue[self.queue.len()..]),
            Some(Call::Reclaim(_)) => self.by_delete.retain(|b| store.queue.contains(b)),
            Some(Call::Barrier | Call::Compress) => self.settled = store.queue.clone(),
            _ => {}
        }
        if !matches!(self.call, Some(Call::Estimate(_))) {
            self.done = [self.done[1], self.call];
        }
        self.queue = store.queue.clone();
    }
}

fn refused(store: &Store, c: Call, number: u32, before: &Before) -> Reached {
    let (waits, queued) = (!before.waiting.is_empty(), !before.queue.is_empty());
    let mut reached = vec![
        (number == 13 && waits, "W refused by 13 while a block waits"),
        (number == 13 && !waits && !queued, "W refused by 13 while no block waits or is queued"),
        (number == 13 && queued, W_13_QUEUED),
        (number == 13 && queued && !waits, "W refused by 13 while a block is queued and none waits"),
        (number == 14 && waits && c == Call::Barrier, "Y refused by 14 while a block waits"),
        (number == 14 && matches!(c, Call::Write(..)), "W refused by 14"),
        (number == 11, "refused by 11"),
        (number == 10 && matches!(c, Call::Delete(_)), "D refused by 10"),
        (number == 10 && matches!(c, Call::Estimate(_)), "Q refused by 10"),
        (number == 8 && matches!(c, Call::Estimate(_)), "Q refused by 8"),
    ];
    match c {
        Call::Seal(r) => reached.extend(not_sealed(store, r, number)),
        Call::Retain(r, _) => reached.extend(not_retained(store, r, number)),
        Call::Delete(r) | Call::Estimate(r) => reached.extend(not_deleted(store, c, r, number)),
        Call::Reclaim(_) => reached.extend(not_reclaimed(store, number)),
        _ => {}
    }
    reached
}

/// A T that is refused, which leaves the store as it was.
fn not_reclaimed(store: &Store, number: u32) -> Reached {
    vec![
        (number == 19, T_19),
        (number == 19 && store.unused() == 0, "T refused by 19 with a full log"),
        (number == 14, "T refused by 14"),
        (number == 14 && store.unused() > 0, T_14_SOME),
        (number == 14 && store.unused() > 3, "T refused by 14 with 4 log words or more left"),
    ]
}

/// A T for so many blocks that freed some of them.
fn reclaimed(store: &Store, most: u32, freed: usize, before: &Before) -> Reached {
    let (some, left) = (freed > 0, store.queue.len());
    vec![
        (!some, "T of an empty queue"),
        (!some && store.unused() == 0, "T of an empty queue with a full log"),
        (some && left == 0, T_EMPTIES),
        (some && left == 0 && freed == most as usize, "T for just as many as are queued"),
        (some && left == 0 && freed > 1 && freed < most as usize, "T for more than are queued, which are 2 or more"),
        (some && left > 0, "T that leaves some of the queue"),
        (freed == 64, "T that frees 64"),
        (freed == 64 && left > 0, "T that frees 64 and leaves some"),
        (some && store.unused() == 0, "T whose frees fill the log"),
        (before.queue[..freed].iter().any(|b| before.settled.contains(b)), T_SETTLED),
        (before.queue[..freed].iter().any(|b| !before.by_delete.contains(b)), "T that frees what a window queued"),
    ]
}

/// An S that is refused, which leaves the store as it was. Its window would delete the oldest of the line's sealed records without a fork or a name.
fn not_sealed(store: &Store, r: u32, number: u32) -> Reached {
    if number != 11 {
        return vec![];
    }
    let sealed = store.sealed(r);
    let window = store.lines[store.line_of(r)].window as usize;
    let surplus = if window == 0 { 0 } else { (sealed.len() + 1).saturating_sub(window) };
    vec![(surplus > 0 && sealed.iter().any(|&s| !store.stays(s)), REFUSED_11)]
}

/// A record that only its names keep.
fn is_named_alone(store: &Store, r: u32) -> bool {
    store.names_of(r) > 0 && !store.is_forked(r)
}

/// A D or Q of record r.
fn not_deleted(store: &Store, c: Call, r: u32, number: u32) -> Reached {
    let is_delete = matches!(c, Call::Delete(_));
    vec![
        (number == 18 && is_delete, D_18),
        (number == 18 && !is_delete, Q_18),
        (number == 18 && store.records[&r].open, "D or Q of an open record refused by 18"),
        (number == 10 && store.names_of(r) > 0 && is_delete, D_10_NAMED),
        (number == 10 && store.names_of(r) > 0 && !is_delete, Q_10_NAMED),
    ]
}

/// A call with a name that is refused.
fn not_named(store: &Store, naming: Naming, name: &[u8], number: u32) -> Reached {
    let Naming::Attach(r) = naming else {
        let reasons = if naming == Naming::Detach { [U_16, U_17] } else { [M_16, M_17] };
        return vec![(number == 16, reasons[0]), (number == 17, reasons[1]), (name.len() == 78, "a name of 78 bytes refused by 16")];
    };
    let is_open = store.records.get(&r).map(|record| record.open);
    let second = is_open == Some(true) && store.names_of(r) > 0;
    let on = store.names.get(name);
    vec![
        (number == 16, N_16),
        (number == 16 && is_open.is_none(), "N refused by 16, its record not there"),
        (number == 16 && name.len() == LETTERS + 1, "N of 33 letters refused by 16"),
        (number == 8, N_8),
        (number == 8 && on.is_some(), "N refused by 8, its name in use"),
        (number == 17, N_17),
        (number == 17 && on.is_some(), N_IN_USE),
        (number == 17 && on == Some(&r), "N refused by 17, its name on the same record"),
        (number == 17 && on.is_none() && second, N_SECOND),
        (number == 17 && on.is_none() && !second, N_33),
    ]
}

/// A call with a name that is done.
fn named_so(store: &Store, naming: Naming, name: &[u8]) -> Reached {
    let Naming::Attach(r) = naming else {
        return vec![(naming == Naming::Detach, "U that takes a name off"), (naming == Naming::Resolve, "M of a name in use")];
    };
    let is_open = store.records[&r].open;
    vec![
        (is_open, "N on an open record"),
        (!is_open, "N on a sealed record"),
        (!is_open && store.names_of(r) > 1, "N on a sealed record that has a name"),
        (store.is_forked(r), "N on a forked record"),
        (name.len() == LETTERS, "N of 32 letters"),
        (store.names.len() == NAMES, "N that is the thirty-second"),
    ]
}

fn not_retained(store: &Store, r: u32, number: u32) -> Reached {
    let is_open = store.records.get(&r).map(|record| record.open);
    vec![
        (number == 15, K_15),
        (number == 15 && is_open.is_none(), "K refused by 15, its record not there"),
        (number == 15 && is_open == Some(false), "K refused by 15, its record sealed"),
        (number == 8, K_8),
        (number == 9, K_9),
    ]
}

/// A W or an E in record r.
fn written(store: &Store, r: u32) -> Reached {
    let (n, held) = (store.g.blocks(), store.births.len() as u32);
    vec![
        (n >= 64 && 10 * held >= 9 * n, "W or E, 64 blocks or more, a tenth of them free at most"),
        (dead(store, r) > 0, "W or E in a record with a deadlist"),
        (dead(store, r) > 31, "W or E in a record with 32 dead blocks or more"),
        (depth(store, r) > 2, "W or E in a fork of forks, 3 deep or more"),
    ]
}

/// A W of a kind: where its search began. After it the counter has gone up if the turn's writes are 0.
fn begun(store: &Store, kind: u32) -> Reached {
    let arenas = store.g.arenas;
    let c = if store.writes == 0 { (store.counter + arenas - 1) % arenas } else { store.counter };
    let round = c + kind >= arenas;
    vec![
        (arenas == 1 && kind == 2, "W of kind 2 with 1 arena"),
        (arenas == 2 && round, "W with 2 arenas, c + k round"),
        (arenas > 2 && round, "W with 3 arenas or more, c + k round"),
        (arenas == 16 && c + kind == 17, "W with 16 arenas, c + k 17"),
    ]
}

/// A W that was given a block, a Y, a C or an L: what it has to do with blocks that are queued, and with those that wait, or did.
fn waited(c: Call, given: &[u32], before: &Before) -> Reached {
    let (many, queued) = (before.waiting.len(), !before.queue.is_empty());
    let again = matches!(c, Call::Write(..)) && before.waited.contains(&given[0]);
    vec![
        (again, "W given a block that had waited"),
        (c == Call::Barrier && many > 0, "Y that ends a block's wait"),
        (c == Call::Compress && many > 0, "C that ends a block's wait"),
        (c == Call::Barrier && many > 31, "Y that ends the wait of 32 or more"),
        (c == Call::FreeList && many > 0, "L that leaves out a waiting block"),
        (c == Call::FreeList && many > 0 && given.is_empty(), "L of nothing while a block waits"),
        (c == Call::FreeList && queued, "L that leaves out a queued block"),
        (c == Call::Compress && queued, C_QUEUED),
        (c == Call::Barrier && queued, "Y with a queue that is not empty"),
    ]
}

/// A call that wrote words after a barrier: a log cut among them reads to what was held at that barrier, which has its queue in it.
fn cut(c: Call, before: &Before) -> Reached {
    let queued = !before.settled.is_empty();
    let logs = matches!(c, Call::Write(..) | Call::Erase(..) | Call::Reclaim(_) | Call::Barrier);
    vec![(queued && logs, CUT_QUEUED)]
}

/// What of the queue is new.
fn joined<'a>(store: &'a Store, before: &Before) -> &'a [u32] {
    &store.queue[before.queue.len()..]
}

fn deleted(store: &Store, r: u32, before: &Before) -> Reached {
    let was_last = before.lasts.contains_key(&r);
    let joined = joined(store, before);
    let (queued, births) = (joined.len(), births_of(store, joined));
    let turned = matches!(before.done, [Some(Call::Delete(_)), Some(Call::Reclaim(_))]);
    vec![
        (before.call == Some(Call::Estimate(r)), "D straight after a Q of its record"),
        (!was_last, "D with a follower"),
        (!was_last && queued > 1, "D with a follower that queues 2 or more"),
        (!was_last && queued > 31, "D with a follower that queues 32 or more"),
        (was_last && queued > 31, "D of a line's last that queues 32 or more"),
        (births.len() > 1, "D that queues blocks of 2 births or more"),
        (births.iter().any(|&v| v != r), "D that queues a block born in another record"),
        (queued > 0 && store.unused() == 0, D_FULL),
        (queued > 0 && !before.queue.is_empty(), "D that queues behind others"),
        (turned, T_BETWEEN),
        (turned && queued > 0 && !before.queue.is_empty(), "T between two Ds, which leaves some of the queue"),
        (store.g.pages > 63, "D at 64 pages or more"),
        (store.records.len() > 31, "D with 32 records or more left"),
    ]
}

fn births_of(store: &Store, blocks: &[u32]) -> BTreeSet<u32> {
    blocks.iter().map(|b| store.births[b]).collect()
}

/// The blocks that a result names, each with its birth.
fn named(c: Call, given: &[u32]) -> Reached {
    let births: BTreeSet<u32> = c.spelling().blocks(given).map(|(_, birth)| birth).collect();
    let other = |r: u32| births.iter().any(|&v| v != r);
    let largest = births.last().copied().unwrap_or(0);
    vec![
        (matches!(c, Call::Write(r, ..) | Call::Erase(r, _) if other(r)), "W or E that frees a block born in another record"),
        (matches!(c, Call::Read(r, _) if other(r)), "R of a block born in another record"),
        (matches!(c, Call::Reclaim(_)) && births.len() > 1, "T that frees blocks of 2 births or more"),
        (largest > 99, "a birth of 3 digits in a result"),
        (largest > 999, "a birth of 4 digits in a result"),
    ]
}

/// A Q of record r.
fn estimated(store: &Store, r: u32, said: &[u32]) -> Reached {
    let line = &store.lines[store.line_of(r)];
    let is_last = line.records.last() == Some(&r);
    vec![
        (!is_last, "Q with a follower"),
        (said[2] > 1, "Q that finds 2 shards or more"),
        (said[2] > 3, "Q that finds 4 shards or more"),
        (said[0] > 31, "Q of a D that would queue 32 or more"),
        (is_last, "Q of a line's last"),
        (line.records.len() == 1, "Q of a line's only"),
        (store.unused() < 3, "Q with under 3 log words left"),
        (store.unused() < said[0], "Q of a D that would queue more than there are log words left"),
    ]
}

/// A K in the line of record r.
fn retained(store: &Store, r: u32, before: &Before) -> Reached {
    let line = &store.lines[store.line_of(r)];
    vec![
        (before.lasts[&r] > 0, K_AGAIN),
        (before.lasts[&r] > line.window, "K that sets a lesser window"),
        (line.base > 0, K_FORK),
        (store.sealed(r).len() as u32 > line.window, "K with more sealed records than the window has"),
        (line.window == 62, "K of 62"),
    ]
}

/// An S of record r.
fn sealed(store: &Store, r: u32, before: &Before) -> Reached {
    let joined = joined(store, before);
    let queued = joined.len();
    let line = &store.lines[store.line_of(r)];
    let rolled = line.base == 0 && line.records.len() > 5 && line.records[0] > 6;
    let stay = store.sealed(r);
    let gone: Vec<u32> = before.records.iter().copied().filter(|n| !store.records.contains_key(n)).collect();
    let passed = |stays: &dyn Fn(u32) -> bool| stay.iter().any(|&s| stays(s) && gone.last() > Some(&s));
    let above = line.window > 0 && stay.len() as u32 > line.window;
    let is_forked_alone = |s: &u32| store.is_forked(*s) && store.names_of(*s) == 0;
    let mixed = stay.iter().any(|&s| is_named_alone(store, s)) && stay.iter().any(is_forked_alone);
    vec![
        (rolled, "S in a line of 6 or more that lost its first"),
        (store.records.len() > 31, "S with 32 records or more"),
        (line.window > 0 && gone.is_empty(), "S with a window that deletes nothing"),
        (!gone.is_empty(), "S that deletes"),
        (gone.len() > 1, S_TWO),
        (gone.len() > 3, "S that deletes 4 or more"),
        (!gone.is_empty() && line.base > 0, "S that deletes in a fork's line"),
        (passed(&|s| store.is_forked(s)), S_PASSES),
        (passed(&|s| is_named_alone(store, s)), S_PASSES_NAMED),
        (above, S_ABOVE),
        (above && mixed, S_MIXED),
        (store.names_of(store.last) > 0, S_MOVES),
        (store.names_of(store.last) > 0 && !gone.is_empty(), "S that moves a name and deletes"),
        (queued > 1, "S that queues 2 or more"),
        (queued > 31, "S that queues 32 or more"),
        (births_of(store, joined).len() > 1, "S that queues blocks of 2 births or more"),
        (queued > 0 && store.unused() == 0, S_FULL),
        (queued > 0 && !before.by_delete.is_empty(), S_BEHIND),
    ]
}

const S_TWO: &str = "S that deletes 2 or more";
const S_PASSES: &str = "S that passes over a forked record";
const S_ABOVE: &str = "S that stops above its window";
const S_PASSES_NAMED: &str = "S that passes over a named record without a fork";
const S_MIXED: &str = "S that stops above its window, at forked records and at named ones";
const S_MOVES: &str = "S that moves a name";
const S_FULL: &str = "S that queues blocks with a full log";
const S_BEHIND: &str = "S that queues blocks behind a D's";
const REFUSED_11: &str = "S refused by 11, though its window would make room";
const K_AGAIN: &str = "K that replaces a window";
const K_FORK: &str = "K in a fork's line";
const K_15: &str = "K refused by 15";
const K_8: &str = "K refused by 8";
const K_9: &str = "K refused by 9";

const N_16: &str = "N refused by 16";
const N_8: &str = "N refused by 8";
const N_17: &str = "N refused by 17";
const N_IN_USE: &str = "N refused by 17, its name in use";
const N_SECOND: &str = "N refused by 17, a second name on an open record";
const N_33: &str = "N refused by 17, a thirty-third name";
const U_16: &str = "U refused by 16";
const U_17: &str = "U refused by 17";
const M_16: &str = "M refused by 16";
const M_17: &str = "M refused by 17";
const D_FULL: &str = "D that queues blocks with a full log";
const T_19: &str = "T refused by 19";
const T_14_SOME: &str = "T refused by 14 with some log words left";
const T_EMPTIES: &str = "T that empties the queue";
const T_BETWEEN: &str = "T between two Ds";
const T_SETTLED: &str = "T that frees a block queued at the last barrier";
const W_13_QUEUED: &str = "W refused by 13 while a block is queued";
const C_QUEUED: &str = "C with a queue that is not empty";
const CUT_QUEUED: &str = "log words to cut after a barrier with a queue that is not empty";
const D_18: &str = "D refused by 18";
const Q_18: &str = "Q refused by 18";
const D_10_NAMED: &str = "D refused by 10 of a forked and named record";
const Q_10_NAMED: &str = "Q refused by 10 of a forked and named record";

/// What more than one script of a hundred has to reach.
const WANTED: [&str; 37] = [
    S_TWO,
    S_PASSES,
    S_ABOVE,
    S_FULL,
    S_BEHIND,
    REFUSED_11,
    K_AGAIN,
    K_FORK,
    K_15,
    K_8,
    K_9,
    S_PASSES_NAMED,
    S_MIXED,
    S_MOVES,
    N_16,
    N_8,
    N_17,
    N_IN_USE,
    N_SECOND,
    N_33,
    U_16,
    U_17,
    M_16,
    M_17,
    D_18,
    Q_18,
    D_10_NAMED,
    Q_10_NAMED,
    D_FULL,
    T_19,
    T_14_SOME,
    T_EMPTIES,
    T_BETWEEN,
    T_SETTLED,
    W_13_QUEUED,
    C_QUEUED,
    CUT_QUEUED,
];

/// What a call, its reply and the store after it are an instance of.
fn instances(store: &Store, c: Call, reply: &Reply, before: &Before) -> Reached {
    let given = match reply {
        Err(number) => return refused(store, c, *number, before),
        Ok(given) => given,
    };
    let mut reached = match c {
        Call::Write(r, ..) | Call::Erase(r, _) => written(store, r),
        Call::Delete(r) => deleted(store, r, before),
        Call::Estimate(r) => estimated(store, r, given),
        Call::Seal(r) => sealed(store, r, before),
        Call::Reclaim(most) => reclaimed(store, most, given.len() / 2, before),
        Call::Retain(r, _) => retained(store, r, before),
        Call::Fork(r) => vec![(store.names_of(r) > 0, "F of a named record")],
        _ => vec![],
    };
    if let Call::Write(_, _, kind) = c {
        reached.extend(begun(store, kind));
    }
    reached.extend(named(c, given));
    reached.extend(waited(c, given, before));
    reached.extend(cut(c, before));
    let logs = matches!(c, Call::Write(..) | Call::Erase(..) | Call::Reclaim(_) | Call::Barrier);
    reached.push((logs && store.unused() < 3, "log words left: under 3"));
    reached
}

/// How often a script reaches each situation.
fn of_script(text: &[u8]) -> BTreeMap<&'static str, u64> {
    let mut here: BTreeMap<&'static str, u64> = BTreeMap::new();
    let mut before = Before::default();
    script::each_reply(text, |store, call, reply| {
        let Some(store) = store else { return };
        let reached = match call {
            None => vec![],
            Some(Command::Unnamed(c)) => instances(store, c, reply, &before),
            Some(Command::Naming(naming, name)) => match reply {
                Ok(_) => named_so(store, naming, name),
                Err(number) => not_named(store, naming, name, *number),
            },
        };
        for (_, name) in reached.into_iter().filter(|x| x.0) {
            *here.entry(name).or_default() += 1;
        }
        before.go_on(store, call, reply);
    });
    here
}

/// Prints, for the scripts of the seeds, how often each situation is reached. It is an error where one that is wanted is reached by too few scripts.
pub fn print(from: u64, to: u64) {
    let mut counts: BTreeMap<&'static str, (u64, u64)> = BTreeMap::new();
    for seed in from..to {
        for (name, n) in of_script(&generate::script(seed)) {
            let count = counts.entry(name).or_default();
            *count = (count.0 + 1, count.1 + n);
        }
    }
    for (name, (scripts, lines)) in &counts {
        println!("{scripts:>7} scripts {lines:>9} lines: {name}");
    }
    let few = |name: &&str| counts.get(name).map_or(0, |count| 100 * count.0) <= to - from;
    if let Some(name) = WANTED.into_iter().find(few) {
        eprintln!("too few scripts reach this: {name}");
        exit(1);
    }
}
