//! Sound states with one field spoilt, in each way that "A state is sound when [..]" forbids. As far as it can be, all other parts of the sentence stay
//! true, so that nobody but the one check can refuse the state. That "kept commits number the smaller of SC and 64" and that there are 1,024 values is so by
//! where they stand: no words say otherwise.

use model::layout::{self, kept_row, waiting_row};
use model::{is_member, keys_of, sizes, Entry, State, Transaction, Write};
use trial::random::Random;

use crate::shape::EXTREMES;

/// A state, and words of the book to put in after it: those that no state of the model can say.
pub struct Spoilt {
    pub state: State,
    pub words: Vec<(usize, u32)>,
}

/// Says no where the state has no such field.
type Spoil = fn(&mut Spoilt, &mut Random) -> bool;

pub const SPOILS: &[(&str, Spoil)] = &[
    ("no partitions", no_partitions),
    ("partitions over 8", many_partitions),
    ("own not among them", own_beyond),
    ("k over 31", large_threshold),
    ("DC over 4,000,000,000", large_dc),
    ("more than 32 wait", long_list),
    ("DC below SC and waiting", low_dc),
    ("SC above DC and waiting", high_sc),
    ("more wait than SC and DC leave", many_waiting),
    ("more than 8 keys", many_keys),
    ("a key over 1,023", large_key),
    ("a key twice", equal_keys),
    ("keys that fall", falling_keys),
    ("identity 0", no_identity),
    ("two of one identity", equal_identities),
    ("own not in a set", own_lacking),
    ("a set beyond those opened", set_beyond),
    ("a vote of our own", own_vote),
    ("a vote of one not involved", stray_vote),
    ("a vote of one beyond", vote_beyond),
    ("rt over DC + 31", late_threshold),
];

/// A number over the limit: the next one, or one further off.
fn over(limit: u32, random: &mut Random) -> u32 {
    let further: Vec<u32> = EXTREMES.iter().copied().filter(|&number| number > limit).collect();
    if random.chance(400) || further.is_empty() {
        return limit + 1;
    }
    random.one_of(&further)
}

fn no_partitions(spoilt: &mut Spoilt, _: &mut Random) -> bool {
    spoilt.state.waiting.clear();
    spoilt.state.partitions = 0;
    true
}

fn many_partitions(spoilt: &mut Spoilt, random: &mut Random) -> bool {
    spoilt.state.partitions = over(sizes::PARTITIONS, random);
    true
}

/// Nobody waits, since each that does would lack our own.
fn own_beyond(spoilt: &mut Spoilt, random: &mut Random) -> bool {
    spoilt.state.waiting.clear();
    spoilt.state.own = over(spoilt.state.partitions - 1, random);
    true
}

fn large_threshold(spoilt: &mut Spoilt, random: &mut Random) -> bool {
    spoilt.state.k = over(sizes::THRESHOLD, random);
    true
}

fn large_dc(spoilt: &mut Spoilt, random: &mut Random) -> bool {
    spoilt.state.dc = over(sizes::DELIVERIES, random);
    true
}

/// The 33rd row is the first kept one: its words are put so that it could wait.
fn long_list(spoilt: &mut Spoilt, random: &mut Random) -> bool {
    let state = &mut spoilt.state;
    let count = over(sizes::WAITING as u32, random);
    let identity = unused_identity(&state.waiting);
    let row = kept_row(0).words;
    let like_a_local = [identity, 1 << state.own, 0, 0, 0, 0, 0, 0];
    spoilt.words.push((layout::WAITING_AT, count));
    spoilt.words.extend(like_a_local.into_iter().enumerate().map(|(within, word)| (row + within, word)));
    state.waiting.len() == sizes::WAITING && state.sc + 33 <= state.dc
}

fn unused_identity(waiting: &[Entry]) -> u32 {
    (1..).find(|&identity| waiting.iter().all(|entry| entry.transaction.identity != identity)).expect("32 are not all")
}

fn low_dc(spoilt: &mut Spoilt, _: &mut Random) -> bool {
    let state = &mut spoilt.state;
    let Some(dc) = (state.sc + state.waiting.len() as u32).checked_sub(1) else { return false };
    state.dc = dc;
    for entry in &mut state.waiting {
        entry.rt = entry.rt.min(dc + sizes::THRESHOLD);
    }
    true
}

/// With an SC near the end of 32 bits, a sum of 32 bits would be small again.
fn high_sc(spoilt: &mut Spoilt, random: &mut Random) -> bool {
    let state = &mut spoilt.state;
    let waiting = state.waiting.len() as u32;
    state.sc = over(state.dc - waiting, random);
    let kept = state.sc.min(sizes::KEPT) as usize;
    state.kept.resize(kept, Default::default());
    true
}

fn many_waiting(spoilt: &mut Spoilt, _: &mut Random) -> bool {
    let State { waiting, sc, dc, .. } = &mut spoilt.state;
    let left = (*dc - *sc) as usize;
    let Some(entry) = waiting.first().cloned() else { return false };
    while waiting.len() <= left && waiting.len() < sizes::WAITING {
        let transaction = Transaction { identity: unused_identity(waiting), ..entry.transaction.clone() };
        waiting.push(Entry { transaction, ..entry.clone() });
    }
    waiting.len() > left
}

/// One of the stored sets: read or written, of one that waits or of a kept commit.
#[derive(Clone, Copy)]
struct Stored {
    kept: bool,
    place: usize,
    written: bool,
}

impl Stored {
    fn draw(state: &State, random: &mut Random) -> Option<Stored> {
        let (kept, written) = (random.chance(500), random.chance(500));
        let count = if kept { state.kept.len() } else { state.waiting.len() };
        (count > 0).then(|| Stored { kept, place: random.below(count as u64) as usize, written })
    }

    fn lists(self, state: &mut State) -> (&mut Vec<u32>, &mut Vec<Write>) {
        if self.kept {
            let commit = &mut state.kept[self.place];
            return (&mut commit.reads, &mut commit.writes);
        }
        let transaction = &mut state.waiting[self.place].transaction;
        (&mut transaction.reads, &mut transaction.writes)
    }

    fn row(self, state: &State) -> layout::Row {
        if self.kept {
            return kept_row(state.floor() + 1 + self.place as u32);
        }
        waiting_row(self.place)
    }
}

/// Replaces one stored set by what is made of its keys.
fn put_keys(spoilt: &mut Spoilt, random: &mut Random, spoil: impl FnOnce(Vec<u32>, &mut Random) -> Vec<u32>) -> bool {
    let Some(stored) = Stored::draw(&spoilt.state, random) else { return false };
    let (reads, writes) = stored.lists(&mut spoilt.state);
    if stored.written {
        let keys = spoil(keys_of(writes), random);
        *writes = keys.into_iter().map(|key| (key, 5)).collect();
    } else {
        *reads = spoil(std::mem::take(reads), random);
    }
    true
}

fn large_key(spoilt: &mut Spoilt, random: &mut Random) -> bool {
    put_keys(spoilt, random, |mut keys, random| {
        keys.truncate(sizes::KEYS_OF_ONE - 1);
        keys.push(over(sizes::KEYS - 1, random));
        keys
    })
}

fn equal_keys(spoilt: &mut Spoilt, random: &mut Random) -> bool {
    put_keys(spoilt, random, |mut keys, random| {
        keys.truncate(sizes::KEYS_OF_ONE - 1);
        let key = if keys.is_empty() { 7 } else { random.one_of(&keys) };
        keys.extend(if keys.is_empty() { vec![key, key] } else { vec![key] });
        keys.sort_unstable();
        keys
    })
}

fn falling_keys(spoilt: &mut Spoilt, random: &mut Random) -> bool {
    put_keys(spoilt, random, |mut keys, random| {
        if keys.len() < 2 {
            return vec![random.one_of(&[8, 1_023]), 7];
        }
        let place = random.below(keys.len() as u64 - 1) as usize;
        keys.swap(place, place + 1);
        keys
    })
}

/// Behind eight keys read stand the keys written: here they go on where those end.
fn many_keys(spoilt: &mut Spoilt, random: &mut Random) -> bool {
    let Some(stored) = Stored::draw(&spoilt.state, random) else { return false };
    let (reads, writes) = stored.lists(&mut spoilt.state);
    *reads = (0..8).collect();
    *writes = (10..18).map(|key| (key, 5)).collect();
    let count_in = if stored.written { layout::WRITTEN_COUNT_IN } else { layout::READ_COUNT_IN };
    let count = over(sizes::KEYS_OF_ONE as u32, random);
    spoilt.words.push((stored.row(&spoilt.state).words + count_in, count));
    true
}

/// One that waits.
fn with_entry(spoilt: &mut Spoilt, random: &mut Random, spoil: impl FnOnce(&mut Entry, &mut Random)) -> bool {
    let waiting = &mut spoilt.state.waiting;
    if waiting.is_empty() {
        return false;
    }
    let place = random.below(waiting.len() as u64) as usize;
    spoil(&mut waiting[place], random);
    true
}

fn no_identity(spoilt: &mut Spoilt, random: &mut Random) -> bool {
    with_entry(spoilt, random, |entry, _| entry.transaction.identity = 0)
}

fn equal_identities(spoilt: &mut Spoilt, random: &mut Random) -> bool {
    let waiting = &mut spoilt.state.waiting;
    let [one, other] = [(); 2].map(|()| random.below(waiting.len().max(1) as u64) as usize);
    if one == other {
        return false;
    }
    waiting[one].transaction.identity = waiting[other].transaction.identity;
    true
}

fn own_lacking(spoilt: &mut Spoilt, random: &mut Random) -> bool {
    let own = spoilt.state.own;
    with_entry(spoilt, random, |entry, _| entry.transaction.set &= !(1 << own))
}

/// A partition that isn't opened, of those that 32 bits can name.
fn beyond(state: &State, random: &mut Random) -> u32 {
    let first = u64::from(state.partitions);
    if random.chance(300) {
        return state.partitions;
    }
    (first + random.below(u64::from(u32::BITS) - first)) as u32
}

fn set_beyond(spoilt: &mut Spoilt, random: &mut Random) -> bool {
    let partition = beyond(&spoilt.state, random);
    with_entry(spoilt, random, |entry, _| entry.transaction.set |= 1 << partition)
}

fn add_vote(entry: &mut Entry, partition: u32, random: &mut Random) {
    let votes = if random.chance(500) { &mut entry.ayes } else { &mut entry.nays };
    *votes |= 1 << partition;
}

fn own_vote(spoilt: &mut Spoilt, random: &mut Random) -> bool {
    let own = spoilt.state.own;
    with_entry(spoilt, random, |entry, random| add_vote(entry, own, random))
}

fn stray_vote(spoilt: &mut Spoilt, random: &mut Random) -> bool {
    let partition = random.below(spoilt.state.partitions.into()) as u32;
    let mut stray = false;
    with_entry(spoilt, random, |entry, random| {
        stray = !is_member(entry.transaction.set, partition);
        add_vote(entry, partition, random);
    }) && stray
}

fn vote_beyond(spoilt: &mut Spoilt, random: &mut Random) -> bool {
    let partition = beyond(&spoilt.state, random);
    with_entry(spoilt, random, |entry, random| add_vote(entry, partition, random))
}

fn late_threshold(spoilt: &mut Spoilt, random: &mut Random) -> bool {
    let last = spoilt.state.dc + sizes::THRESHOLD;
    with_entry(spoilt, random, |entry, random| entry.rt = over(last, random))
}
