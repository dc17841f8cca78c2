//! "A state is sound when [..]": a function for each part of the sentence.

use crate::sizes::{DELIVERIES, KEPT, KEYS, KEYS_OF_ONE, PARTITIONS, THRESHOLD, WAITING};
use crate::state::{is_member, keys_of, members, Entry, State};

/// The parts are functions that a test can replace, one at a time, to see that the trial notices it.
pub trait Soundness {
    fn is_sound(&self, state: &State) -> bool {
        self.sizes_fit(state)
            && self.kept_are_counted(state)
            && self.deliveries_suffice(state)
            && self.sets_fit(state)
            && self.identities_differ(state)
            && state
                .waiting
                .iter()
                .all(|entry| self.partition_set_fits(state, entry) && self.votes_are_of_others(state, entry) && self.threshold_fits(state, entry))
    }

    /// "sizes fit the table"
    fn sizes_fit(&self, state: &State) -> bool {
        (1..=PARTITIONS).contains(&state.partitions)
            && state.own < state.partitions
            && state.k <= THRESHOLD
            && state.waiting.len() <= WAITING
            && state.dc <= DELIVERIES
            && state.values.len() == KEYS as usize
    }

    /// "kept commits number the smaller of SC and 64"
    fn kept_are_counted(&self, state: &State) -> bool {
        state.kept.len() == state.sc.min(KEPT) as usize
    }

    /// "SC plus waiting is at most DC"
    fn deliveries_suffice(&self, state: &State) -> bool {
        u64::from(state.sc) + state.waiting.len() as u64 <= u64::from(state.dc)
    }

    /// "every stored set is within its limits and ascending"
    fn sets_fit(&self, state: &State) -> bool {
        let of_waiting = state.waiting.iter().map(|entry| (&entry.transaction.reads, &entry.transaction.writes));
        let of_kept = state.kept.iter().map(|commit| (&commit.reads, &commit.writes));
        of_waiting.chain(of_kept).all(|(reads, writes)| self.set_fits(reads) && self.set_fits(&keys_of(writes)))
    }

    fn set_fits(&self, keys: &[u32]) -> bool {
        keys.len() <= KEYS_OF_ONE && keys.iter().all(|&key| key < KEYS) && is_ascending(keys)
    }

    /// "waiting identities are nonzero and different"
    fn identities_differ(&self, state: &State) -> bool {
        let identities: Vec<u32> = state.waiting.iter().map(|entry| entry.transaction.identity).collect();
        identities.iter().enumerate().all(|(place, identity)| *identity != 0 && !identities[..place].contains(identity))
    }

    /// "each waiting partition set holds our own and none beyond the number opened"
    fn partition_set_fits(&self, state: &State, entry: &Entry) -> bool {
        holds_own_and_none_beyond(entry.transaction.set, state)
    }

    /// "stored votes come from other involved partitions"
    fn votes_are_of_others(&self, state: &State, entry: &Entry) -> bool {
        let voted = members(entry.ayes | entry.nays);
        voted.iter().all(|&partition| partition != state.own && is_member(entry.transaction.set, partition))
    }

    /// "every rt is at most DC + 31"
    fn threshold_fits(&self, state: &State, entry: &Entry) -> bool {
        u64::from(entry.rt) <= u64::from(state.dc) + u64::from(THRESHOLD)
    }
}

/// "strictly ascending"
pub fn is_ascending(keys: &[u32]) -> bool {
    keys.windows(2).all(|pair| pair[0] < pair[1])
}

pub fn holds_own_and_none_beyond(set: u32, state: &State) -> bool {
    is_member(set, state.own) && members(set).iter().all(|&partition| partition < state.partitions)
}
