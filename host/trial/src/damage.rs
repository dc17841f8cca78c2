//! Lines that are no longer, or only just, of the log's form.

use crate::random::Random;

const BYTES: &[u8] = b"-0,=\tX91NY+\r\x00 \xffD";
const LINE: usize = 512; // "A line over 512 bytes [..] is 14"

/// The line after one to three damages. A newline would make two lines of it, so none is put in.
pub fn damage(mut line: Vec<u8>, random: &mut Random) -> Vec<u8> {
    for _ in 0..=random.below(2) {
        damage_once(&mut line, random);
    }
    line
}

fn damage_once(line: &mut Vec<u8>, random: &mut Random) {
    let place = random.place(line.len());
    let byte = random.one_of(BYTES);
    match random.below(7) {
        0 => line.truncate(place),
        1 => line.insert(place, byte),
        2 => line.extend_from_within(place..),
        3 => lengthen(line, place, random),
        4 => fill(line, random),
        5 if place < line.len() => line[place] = byte,
        _ if place < line.len() => drop(line.remove(place)),
        _ => line.push(byte),
    }
}

/// Digits put in at one place: numbers too large, lines around the limit and far beyond what a program reads at once.
fn lengthen(line: &mut Vec<u8>, place: usize, random: &mut Random) {
    let count = random.one_of(&[1, 20, 400, LINE, LINE + 1, 66_000]);
    line.splice(place..place, vec![b'1'; count]);
}

/// Lengths from just below the limit to just above it.
fn fill(line: &mut Vec<u8>, random: &mut Random) {
    while line.len() < LINE {
        line.extend_from_slice(b",1");
    }
    line.truncate(LINE - 2 + random.place(4));
}
