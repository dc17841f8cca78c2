//! A state as text, for whoever has to look at a difference.

use crate::state::{Entry, State, Write};

/// The counters, then a line for each that waits, for each kept commit that read or wrote, and for the values that aren't 0.
pub fn show_state(state: &State) -> String {
    let State { partitions, own, sc, dc, k, .. } = state;
    let mut lines = vec![format!("partitions {partitions}, own {own}, SC {sc}, DC {dc}, k {k}, {} waiting", state.waiting.len())];
    lines.extend(state.waiting.iter().enumerate().map(|(place, entry)| format!("waits at {place}: {}", show_entry(entry))));
    for (version, commit) in state.versions().filter(|(_, commit)| !commit.reads.is_empty() || !commit.writes.is_empty()) {
        lines.push(format!("version {version}: identity {}, reads {:?}, writes {}", commit.identity, commit.reads, show_writes(&commit.writes)));
    }
    let values: Vec<Write> = (0..).zip(state.values.iter().copied()).filter(|value| value.1 != 0).collect();
    lines.push(format!("values at the floor: {}", show_writes(&values)));
    lines.join("\n")
}

fn show_entry(entry: &Entry) -> String {
    let transaction = &entry.transaction;
    format!(
        "identity {}, set {:#b}, st {}, rt {}, ayes {:#b}, nays {:#b}, reads {:?}, writes {}",
        transaction.identity,
        transaction.set,
        transaction.st,
        entry.rt,
        entry.ayes,
        entry.nays,
        transaction.reads,
        show_writes(&transaction.writes)
    )
}

fn show_writes(writes: &[Write]) -> String {
    let writes: Vec<String> = writes.iter().map(|(key, value)| format!("{key}={value}")).collect();
    format!("[{}]", writes.join(", "))
}
