//! "What an event does": a function for each rule.

use crate::sizes::KEPT;
use crate::state::{keys_of, members, value_written, Commit, Entry, State, Transaction, Write};

/// A transaction that came off the list: its identity and its version, or 0 where it was aborted.
pub type Finish = (u32, u32);

/// The rules are functions that a test can replace, one at a time, to see that the trial notices it.
pub trait Rules {
    /// "DC rises by 1. The transaction gets rt = DC + k, with the k then in force." Its place, or the reason for which it is aborted.
    fn deliver(&self, state: &mut State, newcomer: &Transaction) -> Result<u32, u32> {
        state.dc += 1;
        let rt = state.dc + state.k;
        let place = self.place_or_reason(state, newcomer)?;
        state.waiting.insert(place, Entry { transaction: newcomer.clone(), rt, ayes: 0, nays: 0 });
        Ok(place as u32)
    }

    fn place_or_reason(&self, state: &State, newcomer: &Transaction) -> Result<usize, u32> {
        let local = is_local(state, newcomer);
        // "It is tested against each commit of version st+1 to SC. [..] Any clash: aborted, reason 1."
        if self.commits_tested(state, newcomer.st).iter().any(|commit| self.clashes(local, newcomer, &commit.reads, &commit.writes)) {
            return Err(1);
        }
        if local {
            // "If none exists: aborted, reason 3."
            return (0..=state.waiting.len()).find(|&place| self.may_stand(state, newcomer, place)).ok_or(3);
        }
        // "A global one is tested in the same two ways against every waiting entry. Any clash: aborted, reason 2. Else it joins at the end."
        let meets = |entry: &Entry| self.clashes(local, newcomer, &entry.transaction.reads, &entry.transaction.writes);
        if state.waiting.iter().any(meets) {
            return Err(2);
        }
        Ok(state.waiting.len())
    }

    fn commits_tested<'a>(&self, state: &'a State, st: u32) -> Vec<&'a Commit> {
        state.versions().filter(|&(version, _)| version > st).map(|(_, commit)| commit).collect()
    }

    /// "Clash: it read a key that the commit wrote; for a global one also, it writes a key that the commit read."
    fn clashes(&self, local: bool, newcomer: &Transaction, reads: &[u32], writes: &[Write]) -> bool {
        share(&newcomer.reads, &keys_of(writes)) || (!local && share(&keys_of(&newcomer.writes), reads))
    }

    /// "no entry before i writes a key it reads, and every entry from i on is global, has DC <= rt, and has read no key that it writes"
    fn may_stand(&self, state: &State, newcomer: &Transaction, place: usize) -> bool {
        let (before, from) = state.waiting.split_at(place);
        before.iter().all(|entry| !share(&newcomer.reads, &keys_of(&entry.transaction.writes)))
            && from.iter().all(|entry| self.may_be_passed(state, newcomer, entry))
    }

    fn may_be_passed(&self, state: &State, newcomer: &Transaction, entry: &Entry) -> bool {
        !is_local(state, &entry.transaction) && self.is_within(state, entry) && !share(&entry.transaction.reads, &keys_of(&newcomer.writes))
    }

    fn is_within(&self, state: &State, entry: &Entry) -> bool {
        state.dc <= entry.rt
    }

    /// "It is stored."
    fn vote(&self, entry: &mut Entry, partition: u32, yes: bool) {
        let votes = if yes { &mut entry.ayes } else { &mut entry.nays };
        *votes |= 1 << partition;
    }

    /// "The new k holds for later deliveries only."
    fn change(&self, state: &mut State, k: u32) {
        state.k = k;
    }

    /// "while the head of the list is ready it is taken off, and the next head is looked at"
    fn close(&self, state: &mut State) -> Vec<Finish> {
        let mut finishes = Vec::new();
        while self.head_is_ready(state) {
            finishes.push(self.take_head(state));
        }
        finishes
    }

    /// "A local head is ready. A global head is ready when DC >= rt and no vote is outstanding."
    fn head_is_ready(&self, state: &State) -> bool {
        let Some(head) = state.waiting.first() else { return false };
        is_local(state, &head.transaction) || (self.has_come(state, head) && outstanding(state, head).is_empty())
    }

    fn has_come(&self, state: &State, entry: &Entry) -> bool {
        state.dc >= entry.rt
    }

    /// "A local head commits. A global head commits if every vote was yes, otherwise it aborts and writes nothing."
    fn take_head(&self, state: &mut State) -> Finish {
        let head = state.waiting.remove(0);
        let identity = head.transaction.identity;
        if !is_local(state, &head.transaction) && head.nays != 0 {
            return (identity, 0);
        }
        self.commit(state, head.transaction);
        (identity, state.sc)
    }

    /// "A commit raises SC by 1, and that is its version. The commit's reads and writes are kept; one older than the newest 64 is folded into the values
    /// at the floor."
    fn commit(&self, state: &mut State, transaction: Transaction) {
        state.sc += 1;
        state.kept.push(Commit { identity: transaction.identity, reads: transaction.reads, writes: transaction.writes });
        if state.kept.len() > KEPT as usize {
            for (key, value) in state.kept.remove(0).writes {
                state.values[key as usize] = value;
            }
        }
    }

    /// "the value of the newest version that is at most st"
    fn value(&self, state: &State, key: u32, st: u32) -> i64 {
        let newest_first = state.versions().rev().filter(|&(version, _)| version <= st);
        let written = newest_first.filter_map(|(_, commit)| value_written(&commit.writes, key)).next();
        written.unwrap_or(state.values[key as usize])
    }
}

/// "It is local when its only partition is the engine's own, otherwise global."
pub fn is_local(state: &State, transaction: &Transaction) -> bool {
    members(transaction.set) == [state.own]
}

/// "The votes outstanding are the involved partitions, less our own and less those heard."
pub fn outstanding(state: &State, entry: &Entry) -> Vec<u32> {
    let heard = members(entry.ayes | entry.nays);
    members(entry.transaction.set).into_iter().filter(|partition| *partition != state.own && !heard.contains(partition)).collect()
}

fn share(keys: &[u32], others: &[u32]) -> bool {
    keys.iter().any(|key| others.contains(key))
}
