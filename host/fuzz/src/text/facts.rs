//! What must hold of the tables after any log, whatever its answers were, and what of them is counted as seen.

use model::{decode, is_local, outstanding, Letter, Rules, Soundness, State};

use crate::counters::count_seen;

/// Answers counted by their letters, beside what the tables counted before them.
#[derive(Clone, Copy, Debug, Default, PartialEq, Eq)]
pub struct Counts {
    pub dc: u32,
    pub sc: u32,
    pub waiting: u32,
}

/// What an answer is about, for the counters.
const ANSWER: u32 = 1;
const FINISHES: u32 = 2;
const WAITING: u32 = 3;
const FOLLOWS: u32 = 4;

impl Counts {
    /// "accepted deliveries equal commits, aborts and waiting together, the aborts counted from the answers given"
    pub fn add(&mut self, answers: &[u8]) {
        let (mut finishes, mut before) = (0, 0);
        for answer in answers.split(|&byte| byte == b'\n').filter(|answer| !answer.is_empty()) {
            let letter = answer[0];
            match letter {
                b'W' => (self.dc, self.waiting) = (self.dc + 1, self.waiting + 1),
                b'A' => self.dc += 1,
                b'C' => (self.sc, self.waiting) = (self.sc + 1, self.waiting - 1),
                b'B' => self.waiting -= 1,
                _ => {}
            }
            finishes = if matches!(letter, b'C' | b'B') { finishes + 1 } else { 0 };
            let detail = if matches!(letter, b'W' | b'A' | b'X') { last_number(answer) } else { 0 };
            count_seen(ANSWER, u32::from(letter) << 8 | detail);
            count_seen(FINISHES, finishes);
            count_seen(WAITING, self.waiting << 8 | if letter == b'W' { detail } else { 255 });
            count_seen(FOLLOWS, u32::from(before) << 8 | u32::from(letter));
            before = letter;
        }
    }

    /// What else holds of the tables that such answers leave.
    pub fn hold_in(&self, book: &[u32], sums: &[i64]) -> Result<(), String> {
        let Some(state) = decode(book, sums).filter(|state| Letter.is_sound(state)) else {
            return Err("the tables are left without a sound state".to_string());
        };
        let held = Counts { dc: state.dc, sc: state.sc, waiting: state.waiting.len() as u32 };
        if *self != held {
            return Err(format!("the answers count {self:?}, the tables hold {held:?}"));
        }
        if held.waiting == 32 && !head_waits_for_votes(&state) {
            return Err("a full list at rest has a head that waits for more than votes".to_string());
        }
        Ok(())
    }
}

fn head_waits_for_votes(state: &State) -> bool {
    let head = &state.waiting[0];
    !is_local(state, &head.transaction) && Letter.has_come(state, head) && !outstanding(state, head).is_empty()
}

/// A place, a reason or a refusal.
fn last_number(answer: &[u8]) -> u32 {
    let digits = answer.rsplit(|&byte| byte == b'\t').next().unwrap_or_default();
    digits.iter().fold(0, |number, digit| number * 10 + u32::from(digit - b'0'))
}
