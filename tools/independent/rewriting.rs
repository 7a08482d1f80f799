// The rewriting of a sound book's question, found by trying: every way to send subgoals to subgoals,
// and the lists of rows one after the other in the order of the specification. Slow where a book is
// made to be hard; the comparisons use books that are not.
use crate::reading::{planted, Book, Refusal, Rule, Subgoal, Term};
use std::cell::Cell;
use std::collections::{BTreeMap, BTreeSet};

/// A book that wants more tries than this is given up (some seconds at most).
const MOST_TRIES: u64 = 20_000_000;

thread_local! {
    static TRIES: Cell<u64> = Cell::new(0);
}

/// What `work` makes of a book; None where it is given up.
pub fn within_tries<T>(work: impl FnOnce() -> T) -> Option<T> {
    TRIES.with(|tries| tries.set(0));
    std::panic::set_hook(Box::new(|info| {
        if info.payload().downcast_ref::<GivenUp>().is_none() {
            eprintln!("{}", info);
        }
    }));
    match std::panic::catch_unwind(std::panic::AssertUnwindSafe(work)) {
        Ok(result) => Some(result),
        Err(cause) if cause.is::<GivenUp>() => None,
        Err(cause) => std::panic::resume_unwind(cause),
    }
}

struct GivenUp;

fn count_a_try() {
    TRIES.with(|tries| {
        tries.set(tries.get() + 1);
        if tries.get() > MOST_TRIES {
            std::panic::panic_any(GivenUp);
        }
    })
}

/// A summary's number and the terms in its head's places: their order is the specification's.
pub type Row = (usize, Vec<Term>);

pub struct Rewriting {
    pub rows: Vec<Row>,
    pub there: Vec<(usize, usize)>,
    pub back: Vec<usize>,
}

/// The lead of a stamp, if it has one. The ring's numbers are 1 to `u32::MAX`, so there are that many.
pub fn lead(need: u32, stamp: u32) -> Option<i64> {
    let numbers = u32::MAX as i64 + i64::from(planted("a ring with zero"));
    if stamp == 0 {
        return None;
    }
    if need == 0 {
        return Some(0);
    }
    let plain = stamp as i64 - need as i64;
    // of the three ways to count it the shortest: the ring has an odd number, so that no two are as short
    [plain - numbers, plain, plain + numbers].into_iter().min_by_key(|by| by.abs())
}

pub fn is_admitted(need: u32, stamp: u32) -> bool {
    lead(need, stamp).is_some_and(|by| by >= 0)
}

/// A term of an expansion: one of the rewriting's own, or a fresh variable of a use (from 0).
#[derive(Clone, Copy, PartialEq, Eq, PartialOrd, Ord)]
pub enum Wide {
    Own(Term),
    Fresh(usize, u32),
}

/// A subgoal over terms of any kind.
#[derive(Clone)]
pub struct Goal<T> {
    pub relation: usize,
    pub terms: Vec<T>,
}

fn plain(body: &[Subgoal]) -> Vec<Goal<Term>> {
    body.iter().map(|g| Goal { relation: g.relation, terms: g.terms.clone() }).collect()
}

pub fn wide(body: &[Subgoal]) -> Vec<Goal<Wide>> {
    body.iter().map(|g| Goal { relation: g.relation, terms: g.terms.iter().map(|t| Wide::Own(*t)).collect() }).collect()
}

/// Subgoals to be sent to targets. `bound` says what some of the source's terms become: constants,
/// and the variables that are settled already.
struct Search<'a, S, T> {
    source: &'a [Goal<S>],
    target: &'a [Goal<T>],
    bound: BTreeMap<S, T>,
}

impl<'a, S: Ord + Copy, T: Eq + Copy> Search<'a, S, T> {
    /// Groups of the source's subgoals that share no term but bound ones: what becomes of one group
    /// has no say in another.
    fn groups(&self) -> Vec<Vec<usize>> {
        let mut groups: Vec<(Vec<usize>, BTreeSet<S>)> = Vec::new();
        for (i, goal) in self.source.iter().enumerate() {
            let mut own: BTreeSet<S> = goal.terms.iter().filter(|t| !self.bound.contains_key(t)).cloned().collect();
            let mut members = vec![i];
            let (joined, apart) = groups.into_iter().partition(|(_, terms)| !terms.is_disjoint(&own));
            groups = apart;
            for (more, terms) in joined {
                members.extend(more);
                own.extend(terms);
            }
            groups.push((members, own));
        }
        let sorted = |mut g: Vec<usize>| {
            g.sort();
            g
        };
        groups.into_iter().map(|(members, _)| sorted(members)).collect()
    }

    /// Sends the group's subgoals one after the other, each to every target in turn, and calls `found`
    /// for each way, in order, until it says that it has seen enough.
    fn ways(&self, group: &[usize], places: &mut Vec<usize>, bound: &BTreeMap<S, T>, found: &mut dyn FnMut(&[usize], &BTreeMap<S, T>) -> bool) -> bool {
        if places.len() == group.len() {
            return found(places, bound);
        }
        let goal = &self.source[group[places.len()]];
        for (place, target) in self.target.iter().enumerate() {
            if goal.relation != target.relation {
                continue;
            }
            count_a_try();
            let mut more = None; // the bindings are copied only where one is added
            let fits = goal.terms.iter().zip(&target.terms).all(|(s, t)| {
                match more.as_ref().unwrap_or(bound).get(s) {
                    Some(have) => have == t,
                    None => more.get_or_insert_with(|| bound.clone()).insert(*s, *t).is_none(),
                }
            });
            if fits {
                places.push(place);
                if self.ways(group, places, more.as_ref().unwrap_or(bound), found) {
                    return true;
                }
                places.pop();
            }
        }
        false
    }

    /// The first mapping: per subgoal the place of its target. Since groups have no say in each
    /// other, the first of all is made of the first of each.
    fn first(&self) -> Option<Vec<usize>> {
        let mut all = vec![0; self.source.len()];
        for group in self.groups() {
            let mut places = Vec::new();
            if !self.ways(&group, &mut places, &self.bound, &mut |_, _| true) {
                return None;
            }
            for (i, place) in group.iter().zip(places) {
                all[*i] = place;
            }
        }
        Some(all)
    }
}

impl<'a, S: Ord + Copy, T: Eq + Copy> Search<'a, S, T> {
    /// Whether there is a mapping. The order in which subgoals are sent has no say in that, so each
    /// is taken as soon as it is joined to those before it.
    fn exists(&self) -> bool {
        self.groups().into_iter().all(|mut left| {
            let (mut order, mut met): (Vec<usize>, BTreeSet<S>) = (Vec::new(), BTreeSet::new());
            while !left.is_empty() {
                let met_terms = |i: &usize| self.source[*i].terms.iter().filter(|t| met.contains(t)).count();
                let next = (0..left.len()).max_by_key(|k| met_terms(&left[*k])).unwrap();
                met.extend(&self.source[left[next]].terms);
                order.push(left.remove(next));
            }
            self.ways(&order, &mut Vec::new(), &self.bound, &mut |_, _| true)
        })
    }
}

fn constants<S: Ord, T>(goals: &[Goal<S>], kept: impl Fn(&S) -> Option<T>) -> BTreeMap<S, T>
where
    S: Copy,
{
    goals.iter().flat_map(|g| &g.terms).filter_map(|t| kept(t).map(|k| (*t, k))).collect()
}

/// The rows of one summary: what its groups of subgoals can make of its head, put together in every way.
fn rows_of(summary: &Rule, question: &Rule) -> BTreeSet<Vec<Term>> {
    let (source, target) = (plain(&summary.body), plain(&question.body));
    let bound = constants(&source, |t| if let Term::Constant(_) = t { Some(*t) } else { None });
    let search = Search { source: &source, target: &target, bound };
    let mut rows = BTreeSet::new();
    rows.insert(summary.head.clone());
    for group in search.groups() {
        let mut images = BTreeSet::new();
        search.ways(&group, &mut Vec::new(), &search.bound, &mut |_, bound| {
            images.insert(summary.head.iter().map(|t| bound.get(t).cloned()).collect::<Vec<_>>());
            images.iter().all(|i| i.iter().all(|t| t.is_none())) // one way is enough where the head has none of it
        });
        let mut more = BTreeSet::new();
        for row in &rows {
            for image in &images {
                more.insert((0..row.len()).map(|i| image[i].unwrap_or(row[i])).collect());
            }
        }
        rows = more;
        if rows.len() > 64 {
            break;
        }
    }
    rows
}

/// The expansion of a list of rows, use by use.
pub fn expansion(book: &Book, rows: &[Row]) -> Vec<Vec<Goal<Wide>>> {
    let one_use = |(used, (number, terms)): (usize, &Row)| {
        let rule = &book.summaries[number - 1].1;
        let becomes = |t: &Term| match (t, rule.head.iter().position(|h| h == t)) {
            (Term::Variable(_), Some(place)) => Wide::Own(terms[place]),
            (Term::Variable(v), None) => Wide::Fresh(if planted("a street shared") { 0 } else { used }, *v),
            (constant, _) => Wide::Own(*constant),
        };
        rule.body.iter().map(|g| Goal { relation: g.relation, terms: g.terms.iter().map(becomes).collect() }).collect()
    };
    rows.iter().enumerate().map(one_use).collect()
}

/// Calls with the search for a mapping from the question to the expansion of these rows.
fn search_there<R>(book: &Book, target: &[Goal<Wide>], with: impl Fn(Search<Wide, Wide>) -> R) -> R {
    let source = wide(&book.question.body);
    let mut bound = constants(&source, |t| if let Wide::Own(Term::Constant(_)) = t { Some(*t) } else { None });
    for t in &book.question.head {
        bound.insert(Wide::Own(*t), Wide::Own(*t));
    }
    with(Search { source: &source, target, bound })
}

/// Per question subgoal the use and the subgoal within it, from 1.
fn there(book: &Book, rows: &[Row]) -> Option<Vec<(usize, usize)>> {
    let uses = expansion(book, rows);
    let names: Vec<_> = uses.iter().enumerate().flat_map(|(u, goals)| (0..goals.len()).map(move |g| (u + 1, g + 1))).collect();
    let places = search_there(book, &uses.concat(), |search| search.first())?;
    Some(places.iter().map(|p| names[*p]).collect())
}

fn goes_there(book: &Book, rows: &[Row]) -> bool {
    search_there(book, &expansion(book, rows).concat(), |search| search.exists())
}

/// Expansion to question: per use and subgoal of its summary, the question's subgoal, from 1.
fn back(book: &Book, rows: &[Row]) -> Option<Vec<usize>> {
    let (source, target) = (expansion(book, rows).concat(), plain(&book.question.body));
    let mut bound = constants(&source, |t| if let Wide::Own(c @ Term::Constant(_)) = t { Some(*c) } else { None });
    for t in &book.question.head {
        bound.insert(Wide::Own(*t), *t);
    }
    let places = Search { source: &source, target: &target, bound }.first()?;
    Some(places.iter().map(|p| p + 1).collect())
}

/// Adds to the chosen rows the first `more` further ones, ascending, that make the list equivalent.
/// A list that works keeps working with rows added, so a beginning that does not work with all later
/// rows together is given up at once.
fn complete(book: &Book, rows: &[Row], chosen: &mut Vec<Row>, from: usize, more: usize) -> bool {
    let all: Vec<Row> = chosen.iter().chain(&rows[from..]).cloned().collect();
    if !goes_there(book, &all) {
        return false;
    }
    if more == 0 {
        return goes_there(book, chosen) && back(book, chosen).is_some();
    }
    for next in from..rows.len() {
        chosen.push(rows[next].clone());
        if complete(book, rows, chosen, next + 1, more - 1) {
            return true;
        }
        chosen.pop();
    }
    false
}

pub fn rewrite(book: &Book) -> Result<Rewriting, Refusal> {
    let mut rows: Vec<Row> = Vec::new();
    for (i, (stamp, summary)) in book.summaries.iter().enumerate() {
        if is_admitted(book.need, *stamp) {
            rows.extend(rows_of(summary, &book.question).into_iter().map(|terms| (i + 1, terms)));
            if rows.len() > 64 {
                return Err((9, 0));
            }
        }
    }
    for length in 1..=book.question.body.len() {
        let mut chosen = Vec::new();
        if complete(book, &rows, &mut chosen, 0, length) {
            let (there, back) = (there(book, &chosen).unwrap(), back(book, &chosen).unwrap());
            return Ok(Rewriting { rows: chosen, there, back });
        }
    }
    Err((10, 0))
}

pub fn listing(book: &Book, found: &Rewriting) -> String {
    let mut out = format!("need {}\n", book.need);
    for (i, (stamp, _)) in book.summaries.iter().enumerate() {
        match lead(book.need, *stamp) {
            Some(by) => out += &format!("view {} lead {}\n", i + 1, by),
            None => out += &format!("view {} lead none\n", i + 1),
        }
    }
    out += &format!("rewriting {}\n", found.rows.len());
    for (number, terms) in &found.rows {
        out += &number.to_string();
        for t in terms {
            match t {
                Term::Variable(v) => out += &format!(" v{}", v),
                Term::Constant(c) => out += &format!(" c{}", c),
            }
        }
        out += "\n";
    }
    out += "there";
    for (used, subgoal) in &found.there {
        out += &format!(" {}.{}", used, subgoal);
    }
    out += "\nback";
    for place in &found.back {
        out += &format!(" {}", place);
    }
    out + "\n"
}
