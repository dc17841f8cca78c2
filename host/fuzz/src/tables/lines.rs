//! A call as a line of a log, and its answer as lines, by the document's words.

use model::{Answer, Call, Delivery, Fate, Outcome};

/// The line, without its newline; none if the fields of a line have no room for the call. "Field limits: partition set, partition number and partition
/// count 255; key and k 65,535".
pub fn line(call: &Call) -> Option<String> {
    let bytes = |numbers: &[u32]| numbers.iter().all(|&number| number <= 255);
    let keys = |numbers: &[u32]| numbers.iter().all(|&number| number <= 65_535);
    let line = match call {
        Call::Open { partitions, own, k } if bytes(&[*partitions, *own]) && keys(&[*k]) => format!("O\t{partitions}\t{own}\t{k}"),
        Call::Deliver(delivery) if bytes(&[delivery.set]) && keys(&delivery.reads) && keys(&delivery.keys) => delivery_line(delivery)?,
        Call::Vote { identity, partition, yes } if bytes(&[*partition]) => format!("V\t{identity}\t{partition}\t{}", if *yes { 'Y' } else { 'N' }),
        Call::Change { k } if keys(&[*k]) => format!("K\t{k}"),
        Call::Read { key, st: Some(st) } if keys(&[*key]) => format!("R\t{key}\t{st}"),
        Call::Read { key, st: None } if keys(&[*key]) => format!("R\t{key}\t-"),
        _ => return None,
    };
    (line.len() <= 512).then_some(line)
}

fn delivery_line(delivery: &Delivery) -> Option<String> {
    let Delivery { identity, set, st, reads, keys, amounts } = delivery;
    let reads: Vec<String> = reads.iter().map(u32::to_string).collect();
    let writes: Vec<String> = keys.iter().zip(amounts).map(|(key, amount)| format!("{key}={amount}")).collect();
    (keys.len() == amounts.len()).then(|| format!("D\t{identity}\t{set}\t{st}\t{}\t{}", list(&reads), list(&writes)))
}

fn list(items: &[String]) -> String {
    if items.is_empty() {
        return "-".to_string();
    }
    items.join(",")
}

/// "Answers: O, V (identity, partition) and K repeated; W identity, DC, place; A identity, DC, reason; R key, st, value; X number. After its event, one line
/// a finish: C identity, version; or B identity."
pub fn answer_lines(call: &Call, wanted: &Result<Outcome, u32>) -> String {
    let outcome = match wanted {
        Err(number) => return format!("X\t{number}\n"),
        Ok(outcome) => outcome,
    };
    let first = match (call, outcome.answer) {
        (Call::Deliver(Delivery { identity, .. }), Answer::Delivered { dc, fate: Fate::Waits { place }, .. }) => format!("W\t{identity}\t{dc}\t{place}\n"),
        (Call::Deliver(Delivery { identity, .. }), Answer::Delivered { dc, fate: Fate::Aborted { reason }, .. }) => format!("A\t{identity}\t{dc}\t{reason}\n"),
        (Call::Vote { identity, partition, .. }, _) => format!("V\t{identity}\t{partition}\n"),
        (Call::Read { key, .. }, Answer::Value { value, version }) => format!("R\t{key}\t{version}\t{value}\n"),
        (Call::Open { partitions, own, k }, _) => format!("O\t{partitions}\t{own}\t{k}\n"),
        (Call::Change { k }, _) => format!("K\t{k}\n"),
        other => unreachable!("such a call is answered otherwise: {other:?}"),
    };
    let finishes = outcome.finishes.iter().map(|finish| match finish {
        (identity, 0) => format!("B\t{identity}\n"),
        (identity, version) => format!("C\t{identity}\t{version}\n"),
    });
    first + &finishes.collect::<String>()
}
