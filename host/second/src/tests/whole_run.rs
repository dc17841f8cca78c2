//! "A whole run, `|` standing for the tab."

use super::{tabs, whole};

const IN: &str = "\
O|2|0|1
D|10|3|0|7|7=500
D|11|1|0|8|8=-40
V|10|1|Y
R|8|-
R|7|1
D|12|1|1|7|7=600
";

const OUT: &str = "\
O|2|0|1
W|10|1|0
W|11|2|0
C|11|1
V|10|1
C|10|2
R|8|2|-40
R|7|1|0
A|12|3|1
";

#[test]
fn the_document_s_whole_run() {
    assert_eq!(whole(&tabs(IN)), tabs(OUT));
}

#[test]
fn the_last_line_may_lack_its_newline() {
    assert_eq!(whole(&tabs(IN.trim_end())), tabs(OUT));
}

#[test]
fn no_input_gives_no_output() {
    assert_eq!(whole(b""), b"");
}
