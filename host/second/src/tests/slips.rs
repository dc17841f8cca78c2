//! "Slips that cost a fee": a test for each, which an engine with the slip fails.

use super::{check, check_behind_ten};

/// "Passing tested with DC < rt: the k-th follower is turned back."
#[test]
fn the_kth_follower_passes() {
    check(
        "O|2|0|2           -> O|2|0|2
         D|10|3|0|7|7=500  -> W|10|1|0
         D|11|1|0|1|3=5    -> W|11|2|0 C|11|1
         D|12|1|1|1|3=5    -> W|12|3|0 C|12|2
         D|13|1|2|1|3=5    -> W|13|4|1",
    );
}

/// "Finishing on DC = rt only: a head whose votes come late never finishes."
#[test]
fn late_votes_finish() {
    check_behind_ten(
        "D|11|1|0|-|-   -> W|11|2|0 C|11|1
         D|12|1|0|-|-   -> W|12|3|1
         D|13|1|0|-|-   -> W|13|4|2
         V|10|1|Y       -> V|10|1 C|10|2 C|12|3 C|13|4",
    );
}

/// "Testing commits from st on: a transaction clashes with what it has already seen."
#[test]
fn what_it_has_seen_is_no_clash() {
    check(
        "O|2|0|0        -> O|2|0|0
         D|1|1|0|4|5=1  -> W|1|1|0 C|1|1
         D|2|1|0|5|-    -> A|2|2|1
         D|2|1|1|5|-    -> W|2|3|0 C|2|2
         D|3|3|0|-|4=1  -> A|3|4|1
         D|3|3|1|-|4=1  -> W|3|5|0",
    );
}

/// "Testing a global one on its reads alone."
#[test]
fn a_global_one_is_tested_on_its_writes() {
    check_behind_ten(
        "D|11|3|0|-|7=5 -> A|11|2|2
         V|10|1|Y       -> V|10|1 C|10|1
         D|12|3|0|-|7=5 -> A|12|3|1
         D|13|1|0|-|7=5 -> W|13|4|0 C|13|2",
    );
}

/// "Raising DC for a refused delivery, so every later threshold shifts."
#[test]
fn a_refused_delivery_leaves_dc() {
    check_behind_ten(
        "D|11|1|1|1|3=5 -> X|5
         D|11|2|0|1|3=5 -> X|1
         D|11|1|0|1|3=5 -> W|11|2|0 C|11|1",
    );
}

/// "Closing one head an event, leaving ready ones behind."
#[test]
fn every_ready_head_closes() {
    check(
        "O|2|0|0        -> O|2|0|0
         D|1|3|0|1|1=1  -> W|1|1|0
         D|2|3|0|2|2=2  -> W|2|2|1
         D|3|1|0|3|3=3  -> W|3|3|2
         D|4|3|0|4|4=4  -> W|4|4|3
         V|2|1|N        -> V|2|1
         V|1|1|Y        -> V|1|1 C|1|1 B|2 C|3|2
         V|4|1|Y        -> V|4|1 C|4|3",
    );
}

/// "An aborted delivery still counts in DC."
#[test]
fn an_aborted_delivery_counts() {
    check_behind_ten(
        "V|10|1|Y       -> V|10|1
         D|11|3|0|7|-   -> A|11|2|2 C|10|1",
    );
}

/// "The new k holds for later deliveries only."
#[test]
fn a_change_holds_for_later_deliveries() {
    check_behind_ten(
        "K|0            -> K|0
         D|11|1|0|1|3=5 -> W|11|2|0 C|11|1
         D|12|3|0|2|2=1 -> W|12|3|1
         K|31           -> K|31
         D|13|1|0|-|3=6 -> W|13|4|2
         V|10|1|Y       -> V|10|1 C|10|2
         V|12|1|Y       -> V|12|1 C|12|3 C|13|4",
    );
}

/// "the value of the newest version that is at most st", at the floor, between and at SC.
#[test]
fn reads_of_every_version() {
    let mut program = check("O|1|0|0 -> O|1|0|0");
    for version in 1..=200_i64 {
        let wanted = format!("W|{version}|{version}|0 C|{version}|{version}");
        let line = format!("D|{version}|1|{}|-|{}=-{version},900=7", version - 1, version % 5);
        assert_eq!(super::answer(&mut program, &line), wanted);
        let floor = (version - 64).max(0);
        for st in floor..=version {
            for key in 0..5 {
                let newest = st - (st - key).rem_euclid(5);
                let value = if newest > 0 { -newest } else { 0 };
                assert_eq!(super::answer(&mut program, &format!("R|{key}|{st}")), format!("R|{key}|{st}|{value}"));
            }
        }
        assert_eq!(super::answer(&mut program, "R|901|-"), format!("R|901|{version}|0"));
        if floor > 0 {
            assert_eq!(super::answer(&mut program, &format!("R|0|{}", floor - 1)), "X|6");
        }
        assert_eq!(super::answer(&mut program, &format!("R|0|{}", version + 1)), "X|5");
    }
}
