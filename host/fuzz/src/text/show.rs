//! A log, for whoever has to look at it.

use super::plan::Plan;

pub fn show_log(plan: &Plan, log: &[u8]) {
    eprintln!("a log, given so: {plan:?}");
    eprintln!("each byte that isn't plain as its escape:");
    for line in log.split_inclusive(|&byte| byte == b'\n') {
        eprintln!("    {}", line.escape_ascii());
    }
}
