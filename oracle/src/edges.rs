//! Both sides of every edge of document 01: of its section with that name, of each row of its reading table under each rule, and of each
//! refusal. Each stands with a line that says which edge it is, and with what the document says of it.

use crate::pieces;

mod fronts;
mod records;
mod rereads;
mod walks;

/// What the document says of an edge.
#[derive(Clone, Copy, PartialEq, Debug)]
pub enum Says {
    /// A scan opens the journal, with this cut: 0 none, 1 incomplete, 2 damaged.
    Opens(u8),
    /// A refusal's number, or 0 for none.
    Number(u8),
    /// The first byte of the result.
    Found(u8),
    /// The check program prints this in front.
    Prints(&'static str),
}

pub struct Edge {
    pub what: String,
    pub says: Says,
    pub request: Vec<u8>,
}

/// Edges, one behind the other.
struct List(Vec<Edge>);

impl List {
    fn add(&mut self, what: &str, says: Says, request: Vec<u8>) {
        self.0.push(Edge { what: what.to_string(), says, request });
    }
}

/// All edges.
pub fn edges() -> Vec<Edge> {
    let mut list = List(Vec::new());
    fronts::add(&mut list);
    records::add(&mut list);
    walks::add(&mut list);
    rereads::add(&mut list);
    list.0
}

#[cfg(test)]
mod tests {
    use super::{edges, Says};
    use crate::operations::CHECK;
    use crate::restated::expected;
    use crate::scan::CUT_AT;
    use std::collections::{BTreeSet, HashSet};

    #[test]
    fn each_edge_is_as_the_document_says() {
        for edge in edges() {
            let answer = expected(&edge.request).expect("the request is one").answer;
            let said = match edge.says {
                Says::Opens(_) => (answer[0] == 0).then(|| Says::Opens(answer[CUT_AT])),
                Says::Number(_) => Some(Says::Number(answer[0])),
                Says::Found(_) => (answer[0] == 0).then(|| Says::Found(answer[9])),
                Says::Prints(text) => answer[13..].starts_with(text.as_bytes()).then_some(Says::Prints(text)),
            };
            assert_eq!(said, Some(edge.says), "{}: {:02x?}", edge.what, &answer[..answer.len().min(40)]);
        }
    }

    #[test]
    fn each_refusal_is_among_them() {
        let mut met = BTreeSet::new();
        for edge in edges() {
            let answer = expected(&edge.request).expect("the request is one").answer;
            let text = String::from_utf8_lossy(&answer[9..]).to_string();
            let printed = text.split("refused ").nth(1).and_then(|rest| rest.split(' ').next()).and_then(|number| number.parse().ok());
            met.insert(match (edge.request[0], printed) {
                (CHECK, Some(number)) => number,
                _ => answer[0],
            });
        }
        assert_eq!(met, (0..=29).collect());
    }

    #[test]
    fn no_edge_is_there_twice() {
        let all = edges();
        let requests: HashSet<&Vec<u8>> = all.iter().map(|edge| &edge.request).collect();
        let names: HashSet<&String> = all.iter().map(|edge| &edge.what).collect();
        let mut seen = HashSet::new();
        let twice: Vec<&String> = all.iter().filter(|edge| !seen.insert(&edge.request)).map(|edge| &edge.what).collect();
        assert_eq!((requests.len(), names.len()), (all.len(), all.len()), "{twice:?}");
    }
}
