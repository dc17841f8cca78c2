//! Changes of a log line by line: the fuzzer's own changes are of bytes, and seldom leave lines that can be read.

use trial::random::Random;

use super::plan::HEADER;

/// Numbers at the limits of fields, and beside them.
const LIMITS: [u64; 13] = [0, 1, 8, 31, 32, 63, 64, 65, 255, 1_023, 1_024, 65_536, 4_294_967_295];

/// Another input: the same beginning, and a log changed in a few places.
pub fn changed(input: &[u8], random: &mut Random) -> Vec<u8> {
    let (header, log) = input.split_at(input.len().min(HEADER));
    let mut lines: Vec<Vec<u8>> = log.split(|&byte| byte == b'\n').map(<[u8]>::to_vec).collect();
    for _ in 0..=random.below(3) {
        change(&mut lines, random);
    }
    [header, &lines.join(&b'\n')].concat()
}

fn change(lines: &mut Vec<Vec<u8>>, random: &mut Random) {
    let place = random.place(lines.len());
    let run = place..lines.len().min(place + random.one_of(&[1, 1, 1, 2, 5, 20]));
    match random.below(8) {
        0 => drop(lines.drain(run)),
        1 => {
            let copy = lines[run].to_vec();
            let to = random.place(lines.len());
            lines.splice(to..to, copy);
        }
        2 if !run.is_empty() => {
            let other = random.place(lines.len() - 1);
            lines.swap(place, other);
        }
        3 | 4 => {
            let identity = some_identity(lines, random);
            lines.insert(place, line(&identity, random));
        }
        5 if random.chance(100) => lines.insert(place, long_line(random)),
        _ if !run.is_empty() => {
            let other = lines[random.place(lines.len() - 1)].clone();
            lines[place] = with_other_field(&lines[place], &other, random);
        }
        _ => {}
    }
}

/// One field of the line is another's, or a number near it, or another number, or list.
fn with_other_field(line: &[u8], other: &[u8], random: &mut Random) -> Vec<u8> {
    let mut fields: Vec<Vec<u8>> = line.split(|&byte| byte == b'\t').map(<[u8]>::to_vec).collect();
    let place = random.place(fields.len() - 1);
    let number = String::from_utf8_lossy(&fields[place]).parse::<u64>();
    fields[place] = match (random.below(6), number) {
        (0, _) => other.split(|&byte| byte == b'\t').nth(place).unwrap_or_default().to_vec(),
        (1, Ok(number)) => number.wrapping_add(1).to_string().into_bytes(),
        (2, Ok(number)) => number.saturating_sub(1).to_string().into_bytes(),
        (3, Ok(_)) => random.one_of(&LIMITS).to_string().into_bytes(),
        (_, Ok(_)) => random.below(40).to_string().into_bytes(),
        (3, _) => keys(random).into_bytes(),
        (4, _) => writes(random).into_bytes(),
        _ => b"-".to_vec(),
    };
    fields.join(&b'\t')
}

/// That of a delivery in the log, if there is one where a few are looked for, so that votes find it.
fn some_identity(lines: &[Vec<u8>], random: &mut Random) -> String {
    let some = (0..4).filter_map(|_| lines.get(random.place(lines.len()))).find(|line| line.starts_with(b"D\t"));
    let identity = some.and_then(|line| line.split(|&byte| byte == b'\t').nth(1));
    identity.map_or_else(|| (1 + random.below(40)).to_string(), |identity| String::from_utf8_lossy(identity).into_owned())
}

fn line(identity: &str, random: &mut Random) -> Vec<u8> {
    let line = match random.below(12) {
        0 => format!("O\t{}\t{}\t{}", 1 + random.below(8), random.below(2), random.below(32)),
        1 => format!("K\t{}", random.below(33)),
        2 => format!("R\t{}\t-", random.below(12)),
        3 => format!("R\t{}\t{}", random.below(12), random.below(6)),
        4..=6 => format!("V\t{identity}\t{}\t{}", random.below(3), random.one_of(&['Y', 'Y', 'N'])),
        _ => {
            let identity = 1 + random.below(40);
            let set = random.one_of(&[1, 1, 3, 3, 2, 7]);
            format!("D\t{identity}\t{set}\t{}\t{}\t{}", random.below(4), keys(random), writes(random))
        }
    };
    line.into_bytes()
}

/// One that could be read but for its length, of about as many bytes as a line may have.
fn long_line(random: &mut Random) -> Vec<u8> {
    let (start, end) = (b"D\t1\t1\t0\t", b"7\t-");
    let list = b"7,".iter().cycle().take(508 + random.place(8) - start.len() - end.len());
    start.iter().chain(list).chain(end).copied().collect()
}

fn keys(random: &mut Random) -> String {
    let keys: Vec<String> = few_keys(random).iter().map(u64::to_string).collect();
    list(&keys)
}

fn writes(random: &mut Random) -> String {
    let writes: Vec<String> = few_keys(random).iter().map(|key| format!("{key}={}", random.below(200) as i64 - 100)).collect();
    list(&writes)
}

/// Ascending, of eight in all, so that they clash.
fn few_keys(random: &mut Random) -> Vec<u64> {
    let often = random.one_of(&[1, 1, 2, 8]);
    (0..8).filter(|_| random.below(8) < often).collect()
}

fn list(items: &[String]) -> String {
    if items.is_empty() {
        return "-".to_string();
    }
    items.join(",")
}
