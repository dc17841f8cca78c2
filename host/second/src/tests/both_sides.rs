//! "Both sides of each line": a test for each of its lines.

use super::{answer, check, check_behind_ten, check_on, commit_nothing};

#[test]
fn local_reads_1_writes_3() {
    check_behind_ten("D|11|1|0|1|3=5 -> W|11|2|0 C|11|1");
    check_behind_ten(
        "D|90|1|0|-|-   -> W|90|2|0 C|90|1
         D|11|1|1|1|3=5 -> W|11|3|1
         V|10|1|Y       -> V|10|1 C|10|2 C|11|3",
    );
}

#[test]
fn the_same_local_at_k_0() {
    check(
        "O|2|0|0           -> O|2|0|0
         D|10|3|0|7|7=500  -> W|10|1|0
         D|11|1|0|1|3=5    -> W|11|2|1",
    );
}

#[test]
fn local_reads_7_writes_8() {
    check_behind_ten("D|11|1|0|7|8=5 -> W|11|2|0 C|11|1");
    check_behind_ten(
        "D|90|1|0|-|-   -> W|90|2|0 C|90|1
         D|11|1|1|7|8=5 -> A|11|3|3",
    );
}

#[test]
fn local_reads_nothing_writes_7() {
    check_behind_ten("D|11|1|0|-|7=5 -> W|11|2|1");
}

#[test]
fn local_reads_7_writes_7() {
    check_behind_ten("D|11|1|0|7|7=5 -> A|11|2|3");
}

#[test]
fn global_reads_9_writes_7() {
    check_behind_ten("D|11|3|0|9|7=5 -> A|11|2|2");
}

#[test]
fn st_at_sc() {
    check_behind_ten(
        "D|11|1|1|-|-   -> X|5
         D|11|1|0|-|-   -> W|11|2|0 C|11|1
         D|12|1|2|-|-   -> X|5
         D|12|1|1|-|-   -> W|12|3|1",
    );
}

#[test]
fn st_at_the_floor() {
    let mut program = check("O|2|0|1 -> O|2|0|1");
    commit_nothing(&mut program, 64);
    check_on(
        &mut program,
        "D|11|1|0|-|-   -> W|11|65|0 C|11|65
         D|12|1|0|-|-   -> X|6
         R|7|0          -> X|6
         R|7|1          -> R|7|1|0
         D|12|1|1|-|-   -> W|12|66|0 C|12|66",
    );
}

#[test]
fn vote_n_at_dc_2() {
    check_behind_ten(
        "D|11|1|0|-|-   -> W|11|2|0 C|11|1
         V|10|1|N       -> V|10|1 B|10
         R|7|-          -> R|7|1|0
         V|10|1|N       -> X|9",
    );
}

#[test]
fn vote_again_while_waiting() {
    check_behind_ten(
        "V|10|1|Y       -> V|10|1
         V|10|1|Y       -> X|11
         V|10|1|N       -> X|11
         V|10|0|Y       -> X|10",
    );
}

#[test]
fn keys_and_k_at_their_limits() {
    check_behind_ten(
        "R|1023|-       -> R|1023|0|0
         R|1024|-       -> X|3
         D|11|1|0|1023|1023=1 -> W|11|2|0 C|11|1
         D|12|1|0|1024|-      -> X|3
         D|12|1|0|-|1024=1    -> X|3
         K|31           -> K|31
         K|32           -> X|12",
    );
}

#[test]
fn a_full_list() {
    let mut program = check("O|2|0|31 -> O|2|0|31");
    for identity in 1..=32 {
        let wanted = format!("W|{identity}|{identity}|{}", identity - 1);
        assert_eq!(answer(&mut program, &format!("D|{identity}|3|0|-|-")), wanted);
    }
    check_on(
        &mut program,
        "D|33|3|0|-|-   -> X|7
         D|33|1|0|-|-   -> X|7
         V|1|1|Y        -> V|1|1 C|1|1
         D|33|3|0|-|-   -> W|33|33|31",
    );
}
