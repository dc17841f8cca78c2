//! "Numbers the desk hands back": each from both sides, and their order. 8 is tested beside the engine; 15 isn't reached: the finish list isn't lent.

use super::{answer, check, check_behind_ten, check_on, commit_nothing, TEN_WAITS};

#[test]
fn number_1() {
    check(
        "O|3|1|1        -> O|3|1|1
         D|1|0|0|-|-    -> X|1
         D|1|1|0|-|-    -> X|1
         D|1|5|0|-|-    -> X|1
         D|1|10|0|-|-   -> X|1
         D|1|130|0|-|-  -> X|1
         D|1|2|0|-|-    -> W|1|1|0 C|1|1
         D|1|7|0|-|-    -> W|1|2|0",
    );
    check(
        "O|8|7|1        -> O|8|7|1
         D|1|127|0|-|-  -> X|1
         D|1|255|0|-|-  -> W|1|1|0",
    );
}

#[test]
fn number_2() {
    check_behind_ten(
        "D|11|1|0|0,1,2,3,4,5,6,8,9|-   -> X|2
         D|11|1|0|9,9,9,9,9,9,9,9,9|-   -> X|2
         D|11|1|0|-|0=0,1=0,2=0,3=0,4=0,5=0,6=0,8=0,9=0 -> X|2
         D|11|1|0|0,1,2,3,4,5,6,8|0=0,1=0,2=0,3=0,4=0,5=0,6=0,8=0 -> W|11|2|0 C|11|1",
    );
}

#[test]
fn number_3() {
    check_behind_ten(
        "D|11|1|0|1,1|-         -> X|3
         D|11|1|0|2,1|-         -> X|3
         D|11|1|0|-|1=0,1=0     -> X|3
         D|11|1|0|-|2=0,1=0     -> X|3
         D|11|1|0|65535|-       -> X|3
         D|11|1|0|-|1023=0,1024=0 -> X|3
         R|1024|-               -> X|3
         D|11|1|0|0,1023|0=1,1023=2 -> W|11|2|0 C|11|1",
    );
}

#[test]
fn number_4() {
    check_behind_ten(
        "D|0|1|0|-|-            -> X|4
         D|10|1|0|-|-           -> X|4
         D|4294967295|1|0|-|-   -> W|4294967295|2|0 C|4294967295|1
         V|10|1|Y               -> V|10|1 C|10|2
         D|10|1|0|-|-           -> W|10|3|0 C|10|3",
    );
}

#[test]
fn numbers_5_and_6() {
    let mut program = check("O|2|0|1 -> O|2|0|1");
    commit_nothing(&mut program, 70);
    check_on(
        &mut program,
        "R|1|71         -> X|5
         R|1|70         -> R|1|70|0
         R|1|6          -> R|1|6|0
         R|1|5          -> X|6
         D|1|1|71|-|-   -> X|5
         D|1|1|5|-|-    -> X|6
         D|1|1|6|-|-    -> W|1|71|0 C|1|71",
    );
}

#[test]
fn numbers_9_to_11() {
    check(
        "O|3|1|1        -> O|3|1|1
         D|10|3|0|7|7=1 -> W|10|1|0
         D|11|2|0|7|7=1 -> A|11|2|3
         D|11|2|0|-|7=1 -> W|11|3|1
         V|0|0|Y        -> X|9
         V|12|0|Y       -> X|9
         V|10|1|Y       -> X|10
         V|10|2|Y       -> X|10
         V|10|8|Y       -> X|10
         V|10|255|Y     -> X|10
         V|11|0|Y       -> X|10
         V|10|0|Y       -> V|10|0 C|10|1 C|11|2
         V|10|0|Y       -> X|9",
    );
    check_behind_ten(
        "V|10|1|N       -> V|10|1
         V|10|1|Y       -> X|11
         D|11|1|0|-|-   -> W|11|2|0 C|11|1 B|10",
    );
}

#[test]
fn number_12() {
    check_behind_ten("K|32 -> X|12\n K|65535 -> X|12\n K|31 -> K|31\n K|0 -> K|0");
}

#[test]
fn number_13() {
    check(
        "K|1            -> X|13
         D|0|0|9|1,1|-  -> X|13
         V|0|0|Y        -> X|13
         R|2000|7       -> X|13
         O|0|0|1        -> X|13
         O|9|0|1        -> X|13
         O|2|2|1        -> X|13
         O|2|0|32       -> X|13
         K|65536        -> X|14
         O|8|7|31       -> O|8|7|31
         O|8|7|31       -> X|13
         O|9|9|99       -> X|13
         O|256|0|0      -> X|14",
    );
}

#[test]
fn a_lower_number_comes_first() {
    check_behind_ten(
        "D|0|2|9|1,2,3,4,5,6,7,8,65536|-        -> X|14
         D|0|2|9|1,2,3,4,5,6,7,8,65535|-        -> X|1
         D|0|1|9|1,2,3,4,5,6,7,8,65535|-        -> X|2
         D|0|1|9|65535|-                        -> X|3
         D|0|1|9|1|-                            -> X|4
         D|11|1|9|1|-                           -> X|5
         R|1024|9                               -> X|3
         V|11|0|Y                               -> X|9
         V|10|0|Y                               -> X|10",
    );
}

#[test]
fn a_refusal_changes_nothing() {
    let mut program = check(TEN_WAITS);
    let before = format!("{program:?}");
    for (line, number) in [
        ("D|11|2|0|-|-", 1),
        ("D|11|1|0|9,9,9,9,9,9,9,9,9|-", 2),
        ("D|11|1|0|9,9|-", 3),
        ("D|10|1|0|-|-", 4),
        ("D|11|1|1|-|-", 5),
        ("V|11|1|Y", 9),
        ("V|10|0|N", 10),
        ("K|32", 12),
        ("O|2|0|2", 13),
        ("Q", 14),
    ] {
        assert_eq!(answer(&mut program, line), format!("X|{number}"));
        let same = format!("{program:?}");
        let state = |text: &str| text.split_once("lists: Lists").map(|(state, _)| state.to_owned());
        assert_eq!(state(&same), state(&before), "after {line}");
    }
}
