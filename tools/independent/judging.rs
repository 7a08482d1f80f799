// Whether a rewriting is right by its witness: each part of the specification's sentence on the
// checker by itself.
use crate::reading::{read_book, read_rule, Book, Rule, Term};
use crate::rewriting::{expansion, is_admitted, wide, Goal, Row, Wide};
use std::collections::BTreeSet;

/// The rewriting, if it is one whole rule by the layout with 1 to 12 subgoals over admitted summaries.
fn read_rewriting(book: &Book, bytes: &[u8]) -> Option<Rule> {
    read_rule(bytes, 12, |number| {
        let (stamp, summary) = book.summaries.get(number.checked_sub(1)?)?;
        is_admitted(book.need, *stamp).then(|| summary.head.len())
    })
}

fn own(terms: &[Term]) -> Vec<Wide> {
    terms.iter().map(|t| Wide::Own(*t)).collect()
}

fn is_constant(t: &Wide) -> bool {
    matches!(t, Wide::Own(Term::Constant(_)))
}

/// Whether some mapping sends this head to that one and each subgoal to the one beside it: all pairs
/// of terms that it has to send are written down, and then each term must have one image, a constant itself.
fn is_mapping(head: &[Wide], to_head: &[Wide], body: &[Goal<Wide>], to_body: &[&Goal<Wide>]) -> bool {
    let mut sent: BTreeSet<(Wide, Wide)> = head.iter().cloned().zip(to_head.iter().cloned()).collect();
    for (goal, target) in body.iter().zip(to_body) {
        sent.extend(goal.terms.iter().cloned().zip(target.terms.iter().cloned()));
    }
    let relations_kept = body.iter().zip(to_body).all(|(goal, target)| goal.relation == target.relation);
    let terms: BTreeSet<Wide> = sent.iter().map(|(term, _)| *term).collect();
    relations_kept && terms.len() == sent.len() && sent.iter().all(|(term, image)| !is_constant(term) || term == image)
}

/// What stands at a place that is counted from 1.
fn at<T>(list: &[T], place: u8) -> Option<&T> {
    list.get((place as usize).checked_sub(1)?)
}

fn is_right(book: &[u8], rewriting: &[u8], witness: &[u8]) -> Option<bool> {
    let book = read_book(book).ok()?;
    let rewriting = read_rewriting(&book, rewriting)?;
    let rows: Vec<Row> = rewriting.body.iter().map(|g| (g.relation, g.terms.clone())).collect();
    let (question, uses) = (wide(&book.question.body), expansion(&book, &rows));
    let whole = uses.concat();
    if rewriting.head != book.question.head || witness.len() != 2 * question.len() + whole.len() {
        return Some(false);
    }
    let (pairs, places) = witness.split_at(2 * question.len());
    let there: Option<Vec<_>> = pairs.chunks(2).map(|pair| at(at(&uses, pair[0])?, pair[1])).collect();
    let back: Option<Vec<_>> = places.iter().map(|place| at(&question, *place)).collect();
    let (head, its_head) = (own(&book.question.head), own(&rewriting.head));
    Some(is_mapping(&head, &its_head, &question, &there?) && is_mapping(&its_head, &head, &whole, &back?))
}

pub fn line(book: &[u8], rewriting: &[u8], witness: &[u8]) -> Vec<u8> {
    let answer = is_right(book, rewriting, witness).unwrap_or(false);
    if answer { b"yes\n".to_vec() } else { b"no\n".to_vec() }
}
