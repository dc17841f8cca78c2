//! "Slips that cost a fee", and other rules read otherwise.

use model::{is_local, keys_of, Answer, Call, Commit, Desk, Entry, Finish, Lent, Letter, Rules, State, Transaction, Write, BY_THE_LETTER};

use super::{by_model, first_difference, is_caught, is_rule_caught};
use crate::shrink::shrink;

// "Passing tested with DC < rt: the k-th follower is turned back."
struct PassingBelow;
impl Rules for PassingBelow {
    fn is_within(&self, state: &State, entry: &Entry) -> bool {
        state.dc < entry.rt
    }
}

// "Finishing on DC = rt only: a head whose votes come late never finishes."
struct FinishingAtOnly;
impl Rules for FinishingAtOnly {
    fn has_come(&self, state: &State, entry: &Entry) -> bool {
        state.dc == entry.rt
    }
}

// "Testing commits from st on: a transaction clashes with what it has already seen."
struct CommitsFromSt;
impl Rules for CommitsFromSt {
    fn commits_tested<'a>(&self, state: &'a State, st: u32) -> Vec<&'a Commit> {
        state.versions().filter(|&(version, _)| version >= st).map(|(_, commit)| commit).collect()
    }
}

// "Testing a global one on its reads alone."
struct ReadsAlone;
impl Rules for ReadsAlone {
    fn clashes(&self, _: bool, newcomer: &Transaction, reads: &[u32], writes: &[Write]) -> bool {
        Letter.clashes(true, newcomer, reads, writes)
    }
}

// "Raising DC for a refused delivery, so every later threshold shifts."
fn refusal_raises_dc(call: &Call, lent: &mut Lent) -> Answer {
    let answer = by_model(call, lent);
    if let (Call::Deliver(_), Answer::Refused(1..=8)) = (call, answer) {
        lent.book[3] += 1;
    }
    answer
}

// "Closing one head an event, leaving ready ones behind."
struct OneHeadAnEvent;
impl Rules for OneHeadAnEvent {
    fn close(&self, state: &mut State) -> Vec<Finish> {
        if self.head_is_ready(state) {
            vec![self.take_head(state)]
        } else {
            Vec::new()
        }
    }
}

#[test]
fn each_slip_of_the_document_is_caught() {
    assert!(is_rule_caught(&PassingBelow));
    assert!(is_rule_caught(&FinishingAtOnly));
    assert!(is_rule_caught(&CommitsFromSt));
    assert!(is_rule_caught(&ReadsAlone));
    assert!(is_caught(&refusal_raises_dc));
    assert!(is_rule_caught(&OneHeadAnEvent));
}

struct WritesTestedOfLocals;
impl Rules for WritesTestedOfLocals {
    fn clashes(&self, _: bool, newcomer: &Transaction, reads: &[u32], writes: &[Write]) -> bool {
        Letter.clashes(false, newcomer, reads, writes)
    }
}

// "Source line 60 also forbids passing an entry that writes a key the newcomer read. We leave it out"
struct LineSixtyKept;
impl Rules for LineSixtyKept {
    fn may_be_passed(&self, state: &State, newcomer: &Transaction, entry: &Entry) -> bool {
        let written = keys_of(&entry.transaction.writes);
        Letter.may_be_passed(state, newcomer, entry) && !newcomer.reads.iter().any(|key| written.contains(key))
    }
}

struct LocalsPassed;
impl Rules for LocalsPassed {
    fn may_be_passed(&self, state: &State, newcomer: &Transaction, entry: &Entry) -> bool {
        let mut global = entry.clone();
        global.transaction.set = u32::MAX;
        Letter.may_be_passed(state, newcomer, &global)
    }
}

struct LastPlace;
impl Rules for LastPlace {
    fn place_or_reason(&self, state: &State, newcomer: &Transaction) -> Result<usize, u32> {
        let place = Letter.place_or_reason(state, newcomer)?;
        Ok((place..=state.waiting.len()).rev().find(|&later| self.may_stand(state, newcomer, later)).unwrap_or(place))
    }
}

// The newcomer tested after the closing that it brings.
struct ClosedBefore;
impl Rules for ClosedBefore {
    fn deliver(&self, state: &mut State, newcomer: &Transaction) -> Result<u32, u32> {
        state.dc += 1;
        self.close(state);
        state.dc -= 1;
        Letter.deliver(state, newcomer)
    }
}

struct VotesIgnored;
impl Rules for VotesIgnored {
    fn vote(&self, _: &mut Entry, _: u32, _: bool) {}
}

struct OneNoIsEnough;
impl Rules for OneNoIsEnough {
    fn head_is_ready(&self, state: &State) -> bool {
        let refused = |head: &Entry| !is_local(state, &head.transaction) && head.nays != 0;
        Letter.head_is_ready(state) || state.waiting.first().is_some_and(refused)
    }
}

// A partition that stands with both has been heard, and its no counts.
struct YesOutweighsNo;
impl Rules for YesOutweighsNo {
    fn take_head(&self, state: &mut State) -> Finish {
        let head = &mut state.waiting[0];
        head.nays &= !head.ayes;
        Letter.take_head(state)
    }
}

struct AbortRaisesSc;
impl Rules for AbortRaisesSc {
    fn take_head(&self, state: &mut State) -> Finish {
        let finish = Letter.take_head(state);
        if finish.1 == 0 {
            self.commit(state, Transaction::default());
        }
        finish
    }
}

struct ReadsNotKept;
impl Rules for ReadsNotKept {
    fn commit(&self, state: &mut State, transaction: Transaction) {
        Letter.commit(state, Transaction { reads: Vec::new(), ..transaction });
    }
}

struct FoldForgotten;
impl Rules for FoldForgotten {
    fn commit(&self, state: &mut State, transaction: Transaction) {
        let values = state.values.clone();
        Letter.commit(state, transaction);
        state.values = values;
    }
}

struct ThresholdsChanged;
impl Rules for ThresholdsChanged {
    fn change(&self, state: &mut State, k: u32) {
        state.waiting.iter_mut().for_each(|entry| entry.rt = entry.rt.saturating_sub(state.k) + k);
        state.k = k;
    }
}

struct VersionBelowSt;
impl Rules for VersionBelowSt {
    fn value(&self, state: &State, key: u32, st: u32) -> i64 {
        Letter.value(state, key, st.saturating_sub(1))
    }
}

struct OldestVersionRead;
impl Rules for OldestVersionRead {
    fn value(&self, state: &State, key: u32, st: u32) -> i64 {
        let oldest = state.versions().filter(|&(version, _)| version <= st).find_map(|(_, commit)| model::value_written(&commit.writes, key));
        oldest.unwrap_or(state.values[key as usize])
    }
}

#[test]
fn other_readings_of_the_rules_are_caught() {
    assert!(is_rule_caught(&WritesTestedOfLocals));
    assert!(is_rule_caught(&LineSixtyKept));
    assert!(is_rule_caught(&LocalsPassed));
    assert!(is_rule_caught(&LastPlace));
    assert!(is_rule_caught(&ClosedBefore));
    assert!(is_rule_caught(&VotesIgnored));
    assert!(is_rule_caught(&OneNoIsEnough));
    assert!(is_rule_caught(&YesOutweighsNo));
    assert!(is_rule_caught(&AbortRaisesSc));
    assert!(is_rule_caught(&ReadsNotKept));
    assert!(is_rule_caught(&FoldForgotten));
    assert!(is_rule_caught(&ThresholdsChanged));
    assert!(is_rule_caught(&VersionBelowSt));
    assert!(is_rule_caught(&OldestVersionRead));
}

/// One waiting entry that is passed just at its threshold, and a local one that passes it.
#[test]
fn a_difference_is_shrunk() {
    let library = |call: &Call, lent: &mut Lent| Desk { rules: &PassingBelow, ..BY_THE_LETTER }.answer(call, lent);
    let differing = first_difference(&library).expect("it is caught");
    let (call, lent) = shrink(&library, differing.call, differing.before);
    let state = model::decode(&lent.book, &lent.sums).expect("a sound state");
    assert_eq!((state.waiting.len(), state.sc, state.dc + 1), (1, 0, state.waiting[0].rt));
    assert!(state.waiting[0].transaction.reads.is_empty() && state.values == [0; 1_024]);
    assert!(matches!(call, Call::Deliver(delivery) if delivery.keys.is_empty() && delivery.reads.is_empty()), "{state:?}");
}
