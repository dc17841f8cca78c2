//! Each part of "A state is sound when [..]" overlooked.

use model::layout::{kept_row, waiting_row, READ_COUNT_IN, WAITING_AT, WRITTEN_COUNT_IN};
use model::{is_member, members, sizes, Answer, Call, Entry, Lent, Letter, Soundness, State, BOOK};

use super::{by_model, is_caught, is_soundness_caught};

/// A part said of a state in which its fault is mended.
macro_rules! mended {
    ($slip:ident, $part:ident, $mend:expr) => {
        struct $slip;
        impl Soundness for $slip {
            fn $part(&self, state: &State) -> bool {
                let mut mended = state.clone();
                let mend: fn(&mut State) = $mend;
                mend(&mut mended);
                Letter.$part(&mended)
            }
        }
    };
}

mended!(NoPartitions, sizes_fit, |state| {
    if state.partitions == 0 {
        (state.partitions, state.own) = (1, 0);
    }
});
mended!(ManyPartitions, sizes_fit, |state| state.partitions = state.partitions.min(8));
mended!(OwnBeyond, sizes_fit, |state| state.own = 0);
mended!(LargeThreshold, sizes_fit, |state| state.k = 0);
mended!(LargeDc, sizes_fit, |state| state.dc = 0);
mended!(ReadsOfWaiting, sets_fit, |state| state.waiting.iter_mut().for_each(|entry| entry.transaction.reads.clear()));
mended!(WritesOfWaiting, sets_fit, |state| state.waiting.iter_mut().for_each(|entry| entry.transaction.writes.clear()));
mended!(ReadsOfKept, sets_fit, |state| state.kept.iter_mut().for_each(|commit| commit.reads.clear()));
mended!(WritesOfKept, sets_fit, |state| state.kept.iter_mut().for_each(|commit| commit.writes.clear()));
mended!(OldestKept, sets_fit, |state| drop(state.kept.drain(..state.kept.len().min(1))));
mended!(NewestKept, sets_fit, |state| drop(state.kept.pop()));
mended!(LastWaiting, sets_fit, |state| drop(state.waiting.pop()));

struct LargeKey;
impl Soundness for LargeKey {
    fn set_fits(&self, keys: &[u32]) -> bool {
        keys.windows(2).all(|pair| pair[0] < pair[1])
    }
}

struct KeysThatFall;
impl Soundness for KeysThatFall {
    fn set_fits(&self, keys: &[u32]) -> bool {
        keys.iter().all(|&key| key < 1_024)
    }
}

struct EqualKeys;
impl Soundness for EqualKeys {
    fn set_fits(&self, keys: &[u32]) -> bool {
        keys.iter().all(|&key| key < 1_024) && keys.is_sorted()
    }
}

struct ScAlone;
impl Soundness for ScAlone {
    fn deliveries_suffice(&self, state: &State) -> bool {
        state.sc <= state.dc
    }
}

struct WaitingAlone;
impl Soundness for WaitingAlone {
    fn deliveries_suffice(&self, state: &State) -> bool {
        state.waiting.len() as u32 <= state.dc
    }
}

struct SumOfWords;
impl Soundness for SumOfWords {
    fn deliveries_suffice(&self, state: &State) -> bool {
        state.sc.wrapping_add(state.waiting.len() as u32) <= state.dc
    }
}

struct OneMoreDelivery;
impl Soundness for OneMoreDelivery {
    fn deliveries_suffice(&self, state: &State) -> bool {
        u64::from(state.sc) + (state.waiting.len() as u64) < u64::from(state.dc)
    }
}

mended!(NoIdentity, identities_differ, |state| {
    for (place, entry) in state.waiting.iter_mut().enumerate().filter(|(_, entry)| entry.transaction.identity == 0) {
        entry.transaction.identity = 1 << 30 | place as u32;
    }
});
struct EqualIdentities;
impl Soundness for EqualIdentities {
    fn identities_differ(&self, state: &State) -> bool {
        state.waiting.iter().all(|entry| entry.transaction.identity != 0)
    }
}

struct NeighboursAlone;
impl Soundness for NeighboursAlone {
    fn identities_differ(&self, state: &State) -> bool {
        let differ = |pair: &[Entry]| pair[0].transaction.identity != pair[1].transaction.identity;
        state.waiting.windows(2).all(differ) && state.waiting.iter().all(|entry| entry.transaction.identity != 0)
    }
}

struct OwnLacking;
impl Soundness for OwnLacking {
    fn partition_set_fits(&self, state: &State, entry: &Entry) -> bool {
        members(entry.transaction.set).iter().all(|&partition| partition < state.partitions)
    }
}

struct SetBeyond;
impl Soundness for SetBeyond {
    fn partition_set_fits(&self, state: &State, entry: &Entry) -> bool {
        is_member(entry.transaction.set, state.own)
    }
}

struct SetOfBytes;
impl Soundness for SetOfBytes {
    fn partition_set_fits(&self, state: &State, entry: &Entry) -> bool {
        let mut of_byte = entry.clone();
        of_byte.transaction.set &= 255;
        Letter.partition_set_fits(state, &of_byte)
    }
}

struct OwnVote;
impl Soundness for OwnVote {
    fn votes_are_of_others(&self, _: &State, entry: &Entry) -> bool {
        (entry.ayes | entry.nays) & !entry.transaction.set == 0
    }
}

struct StrayVotes;
impl Soundness for StrayVotes {
    fn votes_are_of_others(&self, state: &State, entry: &Entry) -> bool {
        !is_member(entry.ayes | entry.nays, state.own)
    }
}

struct AyesAlone;
impl Soundness for AyesAlone {
    fn votes_are_of_others(&self, state: &State, entry: &Entry) -> bool {
        Letter.votes_are_of_others(state, &Entry { nays: 0, ..entry.clone() })
    }
}

struct NaysAlone;
impl Soundness for NaysAlone {
    fn votes_are_of_others(&self, state: &State, entry: &Entry) -> bool {
        Letter.votes_are_of_others(state, &Entry { ayes: 0, ..entry.clone() })
    }
}

struct VotesOfBytes;
impl Soundness for VotesOfBytes {
    fn votes_are_of_others(&self, state: &State, entry: &Entry) -> bool {
        Letter.votes_are_of_others(state, &Entry { ayes: entry.ayes & 255, nays: entry.nays & 255, ..entry.clone() })
    }
}

struct OneVoteAPartition;
impl Soundness for OneVoteAPartition {
    fn votes_are_of_others(&self, state: &State, entry: &Entry) -> bool {
        Letter.votes_are_of_others(state, entry) && entry.ayes & entry.nays == 0
    }
}

struct LateThreshold;
impl Soundness for LateThreshold {
    fn threshold_fits(&self, _: &State, _: &Entry) -> bool {
        true
    }
}

struct ThresholdOneLater;
impl Soundness for ThresholdOneLater {
    fn threshold_fits(&self, state: &State, entry: &Entry) -> bool {
        entry.rt <= state.dc.saturating_add(32)
    }
}

struct ThresholdOneEarlier;
impl Soundness for ThresholdOneEarlier {
    fn threshold_fits(&self, state: &State, entry: &Entry) -> bool {
        entry.rt <= state.dc.saturating_add(30)
    }
}

#[test]
fn a_part_overlooked_or_made_stricter_is_caught() {
    macro_rules! caught {
        ($($slip:ident)*) => {
            $(assert!(is_soundness_caught(&$slip), stringify!($slip));)*
        };
    }
    caught!(NoPartitions ManyPartitions OwnBeyond LargeThreshold LargeDc);
    caught!(ScAlone WaitingAlone SumOfWords OneMoreDelivery);
    caught!(ReadsOfWaiting WritesOfWaiting ReadsOfKept WritesOfKept OldestKept NewestKept LastWaiting LargeKey KeysThatFall EqualKeys);
    caught!(NoIdentity EqualIdentities NeighboursAlone);
    caught!(OwnLacking SetBeyond SetOfBytes);
    caught!(OwnVote StrayVotes AyesAlone NaysAlone VotesOfBytes OneVoteAPartition);
    caught!(LateThreshold ThresholdOneLater ThresholdOneEarlier);
}

/// The model on a copy of the tables with some counts cut down to their limits.
fn with_counts_cut(call: &Call, lent: &mut Lent, at: &[usize], limit: u32) -> Answer {
    let mut cut = lent.clone();
    if cut.book.len() >= BOOK {
        at.iter().for_each(|&at| cut.book[at] = cut.book[at].min(limit));
    }
    match by_model(call, &mut cut) {
        Answer::Refused(number) => Answer::Refused(number),
        answer => {
            *lent = cut;
            answer
        }
    }
}

#[test]
fn a_count_overlooked_is_caught() {
    let waiting = (0..sizes::WAITING).map(|place| waiting_row(place).words);
    let kept = (0..sizes::KEPT).map(|version| kept_row(version).words);
    for count_in in [READ_COUNT_IN, WRITTEN_COUNT_IN] {
        for rows in [waiting.clone().collect::<Vec<_>>(), kept.clone().collect()] {
            let at: Vec<usize> = rows.iter().map(|row| row + count_in).collect();
            assert!(is_caught(&|call, lent| with_counts_cut(call, lent, &at, 8)));
        }
    }
    assert!(is_caught(&|call, lent| with_counts_cut(call, lent, &[WAITING_AT], 32)));
}
