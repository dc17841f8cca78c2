//! A differing call made smaller, part by part, while it still differs.

use model::{decode, encode, Call, Commit, Delivery, Lent, State, BOOK, SUMS};

use crate::compare::compare;
use crate::library::Library;

/// Nothing of what comes back can be spared, of the parts that are tried.
pub fn shrink(library: Library, call: Call, lent: Lent) -> (Call, Lent) {
    let mut smallest = Smallest { library, call, lent };
    while smallest.pass() {}
    (smallest.call, smallest.lent)
}

struct Smallest<'a> {
    library: Library<'a>,
    call: Call,
    lent: Lent,
}

impl Smallest<'_> {
    /// Whether anything was spared.
    fn pass(&mut self) -> bool {
        let mut spared = self.shorter_tables();
        spared |= self.fewer_arguments();
        let Some(state) = self.state() else { return spared };
        for place in (0..state.waiting.len()).rev() {
            spared |= self.try_state(|state| {
                state.waiting.remove(place);
            });
        }
        spared |= self.nearer_opening();
        spared |= self.fewer_keys();
        spared |= self.plainer_entries();
        spared
    }

    fn state(&self) -> Option<State> {
        decode(&self.lent.book, &self.lent.sums)
    }

    fn try_with(&mut self, call: Call, lent: Lent) -> bool {
        if (&call, &lent) == (&self.call, &self.lent) || compare(self.library, &call, &lent).difference.is_none() {
            return false;
        }
        (self.call, self.lent) = (call, lent);
        true
    }

    fn try_lent(&mut self, alter: impl FnOnce(&mut Lent)) -> bool {
        let mut lent = self.lent.clone();
        alter(&mut lent);
        self.try_with(self.call.clone(), lent)
    }

    fn try_state(&mut self, alter: impl FnOnce(&mut State)) -> bool {
        let Some(mut state) = self.state() else { return false };
        alter(&mut state);
        self.try_lent(|lent| encode(&state, &mut lent.book, &mut lent.sums))
    }

    fn try_call(&mut self, alter: impl FnOnce(&mut Call)) -> bool {
        let mut call = self.call.clone();
        alter(&mut call);
        self.try_with(call, self.lent.clone())
    }

    fn try_delivery(&mut self, alter: impl FnOnce(&mut Delivery)) -> bool {
        self.try_call(|call| {
            if let Call::Deliver(delivery) = call {
                alter(delivery);
            }
        })
    }

    fn shorter_tables(&mut self) -> bool {
        let mut spared = self.try_lent(|lent| lent.book.truncate(BOOK));
        spared |= self.try_lent(|lent| lent.sums.truncate(SUMS));
        spared |= self.try_lent(|lent| lent.finishes.truncate(64));
        spared | self.try_lent(|lent| lent.finishes = vec![0; 64])
    }

    fn fewer_arguments(&mut self) -> bool {
        let Call::Deliver(delivery) = self.call.clone() else { return false };
        let mut spared = false;
        for place in (0..delivery.reads.len()).rev() {
            spared |= self.try_delivery(|delivery| {
                delivery.reads.remove(place);
            });
        }
        for place in (0..delivery.keys.len().min(delivery.amounts.len())).rev() {
            spared |= self.try_delivery(|delivery| {
                delivery.keys.remove(place);
                delivery.amounts.remove(place);
            });
        }
        spared | self.try_delivery(|delivery| delivery.amounts.fill(0))
    }

    /// Smaller counters, with the st that the call names.
    fn nearer_opening(&mut self) -> bool {
        let Some(state) = self.state() else { return false };
        let beyond = state.sc.saturating_sub(64);
        let spare = state.dc.saturating_sub(state.sc.saturating_add(state.waiting.len() as u32));
        let mut spared = self.try_state(|state| lower_dc(state, spare));
        spared |= beyond > 0 && self.try_lower_sc(beyond, |_| {});
        for _ in 0..state.kept.len() {
            spared |= self.try_lower_sc(1, |state| {
                state.kept.remove(0);
            });
        }
        spared |= self.try_state(|state| state.k = 0);
        spared | self.try_state(|state| state.values.fill(0))
    }

    fn try_lower_sc(&mut self, by: u32, alter: impl FnOnce(&mut State)) -> bool {
        let mut call = self.call.clone();
        if let Call::Deliver(Delivery { st, .. }) | Call::Read { st: Some(st), .. } = &mut call {
            *st = st.saturating_sub(by);
        }
        let Some(mut state) = self.state() else { return false };
        if state.kept.is_empty() || state.sc < by {
            return false;
        }
        alter(&mut state);
        state.sc -= by;
        lower_dc(&mut state, by);
        let mut lent = self.lent.clone();
        encode(&state, &mut lent.book, &mut lent.sums);
        self.try_with(call, lent)
    }

    fn fewer_keys(&mut self) -> bool {
        let Some(state) = self.state() else { return false };
        let mut spared = false;
        for place in 0..state.kept.len() {
            spared |= self.try_state(|state| state.kept[place] = Commit { identity: state.kept[place].identity, ..Commit::default() });
        }
        let Some(state) = self.state() else { return spared };
        for (place, commit) in state.kept.iter().enumerate() {
            for key in (0..commit.reads.len()).rev() {
                spared |= self.try_state(|state| {
                    state.kept[place].reads.remove(key);
                });
            }
            for key in (0..commit.writes.len()).rev() {
                spared |= self.try_state(|state| {
                    state.kept[place].writes.remove(key);
                });
            }
        }
        for (place, entry) in state.waiting.iter().enumerate() {
            for key in (0..entry.transaction.reads.len()).rev() {
                spared |= self.try_state(|state| {
                    state.waiting[place].transaction.reads.remove(key);
                });
            }
            for key in (0..entry.transaction.writes.len()).rev() {
                spared |= self.try_state(|state| {
                    state.waiting[place].transaction.writes.remove(key);
                });
            }
        }
        spared
    }

    fn plainer_entries(&mut self) -> bool {
        let Some(state) = self.state() else { return false };
        let mut spared = false;
        for place in 0..state.waiting.len() {
            spared |= self.try_state(|state| state.waiting[place].transaction.st = 0);
            spared |= self.try_state(|state| state.waiting[place].rt = 0);
            spared |= self.try_state(|state| state.waiting[place].ayes = 0);
            spared |= self.try_state(|state| state.waiting[place].nays = 0);
            spared |= self.fewer_partitions(place);
        }
        spared
    }

    fn fewer_partitions(&mut self, place: usize) -> bool {
        let mut spared = false;
        for partition in (0..u32::BITS).rev() {
            spared |= self.try_state(|state| {
                let entry = &mut state.waiting[place];
                for set in [&mut entry.transaction.set, &mut entry.ayes, &mut entry.nays] {
                    *set &= !(1 << partition);
                }
            });
        }
        spared
    }
}

/// Thresholds stay as far from DC.
fn lower_dc(state: &mut State, by: u32) {
    state.dc = state.dc.saturating_sub(by);
    for entry in &mut state.waiting {
        entry.rt = entry.rt.saturating_sub(by);
    }
}
