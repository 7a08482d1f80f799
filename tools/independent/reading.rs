// The book: its bytes read into a value, or the refusal (number, place) of numbers 2 to 8.

#[derive(Clone, Copy, PartialEq, Eq, PartialOrd, Ord, Debug)]
pub enum Term {
    Variable(u32), // declared first: variables sort before constants
    Constant(u32),
}

pub struct Subgoal {
    pub relation: usize,
    pub terms: Vec<Term>,
}

pub struct Rule {
    pub head: Vec<Term>,
    pub body: Vec<Subgoal>,
}

pub struct Book {
    pub need: u32,
    pub question: Rule,
    pub summaries: Vec<(u32, Rule)>, // stamp and rule
}

pub type Refusal = (u32, usize);

struct Entry<'a> {
    stamp: u32,
    body: &'a [u8],
}

fn number(bytes: &[u8], at: usize) -> u32 {
    u32::from_le_bytes([bytes[at], bytes[at + 1], bytes[at + 2], bytes[at + 3]])
}

/// Refusals 2, 3 and 4: the entries' stamps and bodies.
fn contents(book: &[u8]) -> Result<Vec<Entry<'_>>, Refusal> {
    if book.len() < 2 || book.len() > 25_040 {
        return Err((2, 0));
    }
    let n = book[0] as usize + 256 * book[1] as usize;
    if n > 64 {
        return Err((3, 0));
    }
    let first = 2 + 12 * (n + 2);
    if book.len() < first {
        return Err((4, 0));
    }
    let mut begin = first as u64; // wide enough that no sum of offsets and lengths wraps
    let mut entries = Vec::new();
    for i in 0..n + 2 {
        let at = 2 + 12 * i;
        let (offset, length) = (number(book, at) as u64, number(book, at + 4) as u64);
        if offset != begin || offset + length > book.len() as u64 {
            return Err((4, 0));
        }
        begin = offset + length;
        entries.push(Entry { stamp: number(book, at + 8), body: &book[offset as usize..begin as usize] });
    }
    if begin != book.len() as u64 {
        return Err((4, 0));
    }
    Ok(entries)
}

/// Whether this program has this fault, to show that comparisons find it: one built for that has the fault that PLANTED names.
pub fn planted(fault: &str) -> bool {
    static NAMED: std::sync::OnceLock<Option<String>> = std::sync::OnceLock::new();
    cfg!(planted) && NAMED.get_or_init(|| std::env::var("PLANTED").ok()).as_deref() == Some(fault)
}

/// What is left of a rule's bytes. None: it ends early, or something is out of range.
struct Bytes<'a>(&'a [u8]);

impl<'a> Bytes<'a> {
    fn byte_from(&mut self, low: usize, high: usize) -> Option<usize> {
        let (first, rest) = self.0.split_first()?;
        self.0 = rest;
        Some(*first as usize).filter(|b| low <= *b && *b <= high)
    }

    fn term(&mut self) -> Option<Term> {
        let tag = self.byte_from(0, 1)?;
        if self.0.len() < 4 {
            return None;
        }
        let value = number(self.0, 0);
        self.0 = &self.0[4..];
        match tag {
            0 if value <= 31 => Some(Term::Variable(value)),
            1 => Some(Term::Constant(value)),
            _ => None,
        }
    }

    fn terms(&mut self, count: usize) -> Option<Vec<Term>> {
        (0..count).map(|_| self.term()).collect()
    }

    fn rule(&mut self, most_subgoals: usize, width: impl Fn(usize) -> Option<usize>) -> Option<Rule> {
        let head_length = self.byte_from(0, if planted("a head of nine") { 9 } else { 8 })?;
        let fewest = if planted("no subgoal") { 0 } else { 1 };
        let subgoals = self.byte_from(fewest, most_subgoals + usize::from(planted("a subgoal too many")))?;
        let head = self.terms(head_length)?;
        let mut body = Vec::new();
        for _ in 0..subgoals {
            let relation = self.byte_from(0, 255)?;
            body.push(Subgoal { relation, terms: self.terms(width(relation)?)? });
        }
        if self.0.is_empty() {
            Some(Rule { head, body })
        } else {
            None
        }
    }
}

/// A whole rule, or None where it breaks the layout. `width` says of a relation's number how many terms
/// its subgoals have, and None where there is no such relation.
pub fn read_rule(body: &[u8], most_subgoals: usize, width: impl Fn(usize) -> Option<usize>) -> Option<Rule> {
    Bytes(body).rule(most_subgoals, width)
}

fn is_safe(rule: &Rule) -> bool {
    rule.head.iter().all(|t| matches!(t, Term::Constant(_)) || rule.body.iter().any(|g| g.terms.contains(t)))
}

fn has_distinct_variables(head: &[Term]) -> bool {
    (0..head.len()).all(|i| matches!(head[i], Term::Variable(_)) && !head[..i].contains(&head[i]))
}

pub fn read_book(book: &[u8]) -> Result<Book, Refusal> {
    let entries = contents(book)?;
    let arities = entries[0].body;
    let in_range = arities.iter().all(|a| (1..=8).contains(a));
    if entries[0].stamp != 0 || arities.is_empty() || arities.len() > 32 || !in_range {
        return Err((5, 0));
    }
    let mut rules = Vec::new();
    for place in 1..entries.len() {
        let most_subgoals = if place == 1 { 12 } else { 8 };
        let arity = |relation: usize| arities.get(relation).map(|a| *a as usize);
        let rule = read_rule(entries[place].body, most_subgoals, arity).ok_or((6, place))?;
        if !is_safe(&rule) {
            return Err((7, place));
        }
        if place > 1 && !has_distinct_variables(&rule.head) {
            return Err((8, place));
        }
        rules.push((entries[place].stamp, rule));
    }
    let summaries = rules.split_off(1);
    let (need, question) = rules.pop().unwrap();
    Ok(Book { need, question, summaries })
}
