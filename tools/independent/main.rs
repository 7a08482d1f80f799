// An independent reading of the specification: it shares nothing with the proved crates, and is
// compared with them on many books. It takes a stream of books on standard input, each after its
// length (4 bytes, little-endian), and writes what the program of that name must write for each; or the
// line `gave up` where trying everything takes too long. For the checker it is a stream of triples,
// book, rewriting and witness, each after its three lengths.
//
//     independent sound
//     independent rewrite
//     independent areas
//     independent judge
mod areas;
mod judging;
mod reading;
mod rewriting;

use std::io::{Read, Write};

fn main() {
    let what = std::env::args().nth(1).expect("sound, rewrite, areas or judge");
    let mut input = Vec::new();
    std::io::stdin().read_to_end(&mut input).unwrap();
    let mut out = std::io::BufWriter::new(std::io::stdout());
    let mut rest = &input[..];
    let parts = if what == "judge" { 3 } else { 1 };
    while let Some(group) = take_group(&mut rest, parts) {
        let told = rewriting::within_tries(|| match what.as_str() {
            "areas" => areas::areas(group[0]),
            "rewrite" => lines(rewrite(group[0])),
            "judge" => judging::line(group[0], group[1], group[2]),
            _ => lines(sound(group[0])),
        });
        out.write_all(&told.unwrap_or(b"gave up\n".to_vec())).unwrap();
    }
}

/// The next so many parts of the stream, behind all their lengths; the last may be cut short.
fn take_group<'a>(rest: &mut &'a [u8], parts: usize) -> Option<Vec<&'a [u8]>> {
    if rest.len() < 4 * parts {
        return None;
    }
    let (lengths, mut behind) = rest.split_at(4 * parts);
    let mut group = Vec::new();
    for length in lengths.chunks(4) {
        let length = u32::from_le_bytes([length[0], length[1], length[2], length[3]]) as usize;
        let (part, more) = behind.split_at(length.min(behind.len()));
        group.push(part);
        behind = more;
    }
    *rest = behind;
    Some(group)
}

fn lines(answer: Result<String, reading::Refusal>) -> Vec<u8> {
    let text = answer.unwrap_or_else(|(number, place)| format!("refused {} at {}\n", number, place));
    text.into_bytes()
}

fn sound(book: &[u8]) -> Result<String, reading::Refusal> {
    reading::read_book(book)?;
    Ok("sound\n".to_string())
}

fn rewrite(book: &[u8]) -> Result<String, reading::Refusal> {
    let book = reading::read_book(book)?;
    let found = rewriting::rewrite(&book)?;
    Ok(rewriting::listing(&book, &found))
}
