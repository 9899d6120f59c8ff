//! Document 01, "Capture": what a capture holds, where it is refused, and the lines that are printed of it. The symbols are played by the
//! unchanged stages.

use crate::unchanged::wired::{Event, Points, Receiver, Told};
use isdb_frontend::s3sync::{choose_words, Word as Signs};
use isdb_frontend::tables::choose_table;
use isdbs3_phy::chain::frame::{part, Part};
use isdbs3_phy::chain::sync::Word;
use std::io::{Result, Write};

/// A refusal's number.
type Refusal = u8;

const WORDS: Refusal = 2;
const POINTS: Refusal = 4;
const SCALE: Refusal = 5;
const CONTENTS: Refusal = 11;
const BODIES: Refusal = 12;

/// What stands before the symbols.
struct Header {
    words: [Signs; 2],
    table: Vec<i16>,
    points: Points,
}

/// "A byte 4, then four entries of 8 bytes: kind (1 byte), three zeros, body length (4 bytes, least first)": the lengths, and what follows.
fn contents(file: &[u8]) -> std::result::Result<([usize; 4], &[u8]), Refusal> {
    let (contents, bodies) = file.split_at_checked(33).ok_or(CONTENTS)?;
    let mut lengths = [0; 4];
    for (k, entry) in contents[1..].chunks(8).enumerate() {
        if entry[0] as usize != k + 1 || entry[1..4] != [0; 3] {
            return Err(CONTENTS);
        }
        lengths[k] = u32::from_le_bytes(entry[4..].try_into().expect("4 bytes")) as usize;
    }
    let [words, table, points, symbols] = lengths;
    let known = [13, 21, 37, 69, 133].contains(&points);
    if contents[0] == 4 && words == 96 && table == 2048 && known && symbols % 2 == 0 {
        Ok((lengths, bodies))
    } else {
        Err(CONTENTS)
    }
}

fn pairs(bytes: &[u8]) -> Vec<i16> {
    bytes.chunks(2).map(|b| i16::from_le_bytes([b[0], b[1]])).collect()
}

fn words(body: &[u8]) -> std::result::Result<[Signs; 2], Refusal> {
    if body.iter().any(|&b| ![1, -1].contains(&(b as i8))) {
        return Err(WORDS);
    }
    let word = |from: usize| std::array::from_fn(|k| [0, 1].map(|part| body[from + 2 * k + part] as i8));
    Ok([word(0), word(48)])
}

fn points(body: &[u8]) -> std::result::Result<Points, Refusal> {
    let bits = usize::from(body[0]);
    if !(1..=5).contains(&bits) || body.len() != 5 + 4 * (1 << bits) {
        return Err(POINTS);
    }
    let (parts, k) = body[1..].split_at(4 << bits);
    let k = u32::from_le_bytes(k.try_into().expect("4 bytes"));
    if k > 1 << 24 {
        return Err(SCALE);
    }
    Ok(Points { bits, points: pairs(parts).chunks(2).map(|p| [p[0], p[1]]).collect(), k: k.into() })
}

/// The header, the symbols' declared length, and all bytes from the symbols on.
fn header(file: &[u8]) -> std::result::Result<(Header, usize, &[u8]), Refusal> {
    let ([w, t, p, symbols], bodies) = contents(file)?;
    // "body by body, an early end (12) before the body's own fault"
    let (body, bodies) = bodies.split_at_checked(w).ok_or(BODIES)?;
    let words = words(body)?;
    let (body, bodies) = bodies.split_at_checked(t).ok_or(BODIES)?;
    let table = pairs(body);
    let (body, bodies) = bodies.split_at_checked(p).ok_or(BODIES)?;
    let points = points(body)?;
    Ok((Header { words, table, points }, symbols, bodies))
}

fn or_dash<N: ToString>(number: Option<N>) -> String {
    number.map_or("-".into(), |n| n.to_string())
}

/// "Events come in order, then soft lines."
fn told_lines(told: &Told, bits: usize, out: &mut impl Write) -> Result<()> {
    for event in &told.events {
        match event {
            Event::Period(p) => writeln!(out, "period {} {} {} {}", p.peak, p.peak_pos, p.sum, u8::from(p.locked))?,
            Event::Head(h) => {
                let word = match h.word {
                    Word::Ssync => "S",
                    Word::Fsync => "F",
                    Word::NotFsync => "N",
                };
                writeln!(out, "head {} {word} {} {}", h.at, or_dash(h.number), or_dash(h.frame))?;
            }
            Event::Lost(at) => writeln!(out, "lost {at}")?,
        }
    }
    let main = |j: u16| matches!(part(usize::from(j)), Part::Main(_));
    let symbols = told.aligned.iter().map(|a| &a.symbol).filter(|s| main(s.j));
    for (symbol, values) in symbols.zip(told.soft.chunks(bits)) {
        write!(out, "soft {} {}", symbol.at, symbol.j)?;
        values.iter().try_for_each(|v| write!(out, " {v}"))?;
        writeln!(out)?;
    }
    Ok(())
}

/// Prints the lines of a capture.
pub fn lines(file: &[u8], out: &mut impl Write) -> Result<()> {
    let (Header { words: [f, s], table, points }, declared, bytes) = match header(file) {
        Ok(header) => header,
        Err(number) => return writeln!(out, "refused {number}"),
    };
    choose_words(f, s);
    choose_table(&table);
    let mut receiver = Receiver::new(0, 0);
    let bits = points.bits;
    receiver.load_points(points);
    // "each whole symbol acts before an early end or a following byte is met"
    for symbol in bytes[..declared.min(bytes.len())].chunks_exact(2) {
        told_lines(&receiver.push([symbol[0] as i8, symbol[1] as i8]), bits, out)?;
    }
    if bytes.len() == declared {
        writeln!(out, "end {}", declared / 2)
    } else {
        writeln!(out, "refused {BODIES}")
    }
}
