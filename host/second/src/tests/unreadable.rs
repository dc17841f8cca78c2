//! "14: program: unreadable line".

use super::{check, tabs, whole, TEN_WAITS};

/// Each of these is 14 to an open engine.
fn unreadable(lines: &[&str]) {
    let mut program = check(TEN_WAITS);
    for line in lines {
        assert_eq!(super::answer(&mut program, line), "X|14", "{line:?}");
    }
}

#[test]
fn letters_and_fields() {
    unreadable(&["", "|", "D", "Q|1", "k|1", "KK|1", "K1", " K|1", "K |1", "K|1 ", "K|1\r", "K|1\0", "K", "K|", "K|1|", "K||1", "K|1|2", "|K|1"]);
    unreadable(&["O|2|0", "O|2|0|1|", "O|2|0|1|1", "W|1|1|0", "C|1|1", "B|1", "A|1|1|1", "X|14", "F|1", "V|10|1", "V|10|1|Y|", "V|10|1|"]);
    unreadable(&["V|10|1|y", "V|10|1|YY", "V|10|1|-", "R|1", "R|1|", "R|1|0|0", "R|-|0", "R|1|--", "R|1|-0", "R|1|-1", "D|11|1|0|-", "D|11|1|0|-|-|-"]);
}

#[test]
fn numbers() {
    unreadable(&["K|01", "K|00", "K|-0", "K|-", "K|+1", "K|1a", "K|0x1", "K|1.0", "K|\u{0661}", "K|65536", "K|18446744073709551617", "K|1,2"]);
    unreadable(&["O|256|0|1", "O|2|256|1", "O|2|0|65536", "V|4294967296|1|Y", "V|10|256|Y", "R|65536|0", "R|1|4294967296"]);
    unreadable(&["D|4294967296|1|0|-|-", "D|11|256|0|-|-", "D|11|1|4294967296|-|-", "D|11|1|-|-|-", "D|-|1|0|-|-", "D|11|-|0|-|-"]);
    unreadable(&["D|11|1|0|65536|-", "D|11|1|0|-|65536=1", "K|100000000000000000000000000000000000001"]);
}

#[test]
fn values() {
    unreadable(&["D|11|1|0|-|1=-0", "D|11|1|0|-|1=-05", "D|11|1|0|-|1=05", "D|11|1|0|-|1=+5", "D|11|1|0|-|1=-", "D|11|1|0|-|1=", "D|11|1|0|-|1=--5"]);
    unreadable(&["D|11|1|0|-|1=9223372036854775808", "D|11|1|0|-|1=-9223372036854775809", "D|11|1|0|-|1=18446744073709551616"]);
    check(
        "O|1|0|0        -> O|1|0|0
         D|1|1|0|-|1=9223372036854775807,2=-9223372036854775808,3=0 -> W|1|1|0 C|1|1
         R|1|-          -> R|1|1|9223372036854775807
         R|2|-          -> R|2|1|-9223372036854775808
         R|3|-          -> R|3|1|0
         R|3|0          -> R|3|0|0",
    );
}

#[test]
fn lists() {
    unreadable(&["D|11|1|0||-", "D|11|1|0|-|", "D|11|1|0|,|-", "D|11|1|0|1,|-", "D|11|1|0|,1|-", "D|11|1|0|1,,2|-", "D|11|1|0|1,-|-", "D|11|1|0|-,1|-"]);
    unreadable(&["D|11|1|0|-1|-", "D|11|1|0|--|-", "D|11|1|0|1=1|-", "D|11|1|0|-|1", "D|11|1|0|-|=1", "D|11|1|0|-|1==1", "D|11|1|0|-|1=1=1"]);
    unreadable(&["D|11|1|0|-|1=1,", "D|11|1|0|-|1=1,-", "D|11|1|0|-|-1=1", "D|11|1|0|-|1=1,2", "D|11|1|0|-|-=1", "D|11|1|0|1;2|-", "D|11|1|0|1, 2|-"]);
    unreadable(&["D|11|1|0|1,2,3,4,5,6,7,8,65536|-", "D|11|1|0|1,2,3,4,5,6,7,8,09|-", "D|11|1|0|-|1=1,2=1,3=1,4=1,5=1,6=1,7=1,8=1,9=-0"]);
}

#[test]
fn other_bytes() {
    assert_eq!(whole(b"K\t1\xff\n\xff\n\x00\nK\x0b1\n"), tabs("X|14\nX|14\nX|14\nX|14\n"));
    assert_eq!(whole(b"\n\n"), tabs("X|14\nX|14\n"));
}

/// A delivery of just so many bytes, with so many keys read that it is refused by 2 if it is readable.
fn delivery_of(length: usize) -> Vec<u8> {
    let start = "D|11|1|0|";
    let body = length - start.len();
    let end = if body.is_multiple_of(2) { "10|-" } else { "1|-" };
    let line = tabs(&[start, &"1,".repeat((body - end.len()) / 2), end].concat());
    assert_eq!(line.len(), length);
    line
}

#[test]
fn lines_around_512_bytes() {
    let opened = |line: &[u8], end: &[u8]| whole(&[b"O\t1\t0\t0\n", line, end].concat());
    for end in ["", "\n", "\nK|3\n"] {
        let behind = if end.len() > 1 { "K|3\n" } else { "" };
        for length in [510, 511, 512] {
            assert_eq!(opened(&delivery_of(length), &tabs(end)), tabs(&format!("O|1|0|0\nX|2\n{behind}")));
        }
        for length in [513, 514, 100_000] {
            assert_eq!(opened(&delivery_of(length), &tabs(end)), tabs(&format!("O|1|0|0\nX|14\n{behind}")));
        }
    }
}
