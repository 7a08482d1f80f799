// What the rewriter must leave in the two areas that are lent to it: the answer's and the witness's
// bytes at their fronts, and nothing else changed; on a refusal nothing at all.
use crate::reading::{planted, read_book, Book, Refusal, Term};
use crate::rewriting::{rewrite, Rewriting};

/// The lengths of answer area and witness area, in the order in which they are tried.
const AREAS: [(usize, usize); 5] = [(600, 150), (534, 120), (533, 120), (534, 119), (533, 119)];

/// What an area holds before.
fn pattern(length: usize, first: usize) -> Vec<u8> {
    (0..length).map(|i| ((first + 7 * i) % 256) as u8).collect()
}

fn put_terms(out: &mut Vec<u8>, terms: &[Term]) {
    for t in terms {
        let (tag, number) = match t {
            Term::Variable(v) => (0, v),
            Term::Constant(c) => (1, c),
        };
        out.push(tag);
        out.extend(number.to_le_bytes());
    }
}

/// The rewriting as a rule, a summary's number where a relation's would stand.
fn answer_bytes(book: &Book, found: &Rewriting) -> Vec<u8> {
    let head = &book.question.head;
    let mut out = vec![head.len() as u8, found.rows.len() as u8];
    put_terms(&mut out, head);
    for (summary, terms) in &found.rows {
        out.push(*summary as u8);
        put_terms(&mut out, terms);
    }
    out
}

fn witness_bytes(found: &Rewriting) -> Vec<u8> {
    let mut out = Vec::new();
    for (used, subgoal) in &found.there {
        out.extend([*used as u8, *subgoal as u8]);
    }
    out.extend(found.back.iter().map(|place| *place as u8));
    out
}

fn bytes_of(book: &[u8]) -> Result<(Vec<u8>, Vec<u8>), Refusal> {
    let book = read_book(book)?;
    let found = rewrite(&book)?;
    Ok((answer_bytes(&book, &found), witness_bytes(&found)))
}

/// For each pair of areas a line of four numbers, then both areas.
pub fn areas(book: &[u8]) -> Vec<u8> {
    let told = bytes_of(book);
    let mut out = Vec::new();
    for (answer_room, witness_room) in AREAS {
        let (mut answer, mut witness) = (pattern(answer_room, 3), pattern(witness_room, 100));
        let told = if answer_room < 534 || witness_room < 120 { &Err((1, 0)) } else { &told };
        match told {
            Err((number, place)) => out.extend(format!("{} {} 0 0\n", number, place).bytes()),
            Ok((a, w)) => {
                out.extend(format!("0 0 {} {}\n", a.len(), w.len()).bytes());
                answer[..a.len()].copy_from_slice(a);
                witness[..w.len()].copy_from_slice(w);
                if planted("a byte past the witness") {
                    witness.iter_mut().skip(w.len()).take(1).for_each(|byte| *byte = 0);
                }
            }
        }
        out.extend(answer);
        out.extend(witness);
    }
    out
}
