//! Pairs of tables to be joined, 512 nodes in all.
use crate::circuits;
use crate::engine;

/// The kind of the joining node: a sequence.
const SEQUENCE: u32 = 7;

pub struct Pair {
    pub name: String,
    first: Vec<u32>,
    second: Vec<u32>,
    pub joined: Vec<u32>,
}

impl Pair {
    fn new(name: String, first: Vec<u32>, second: Vec<u32>) -> Pair {
        let joined = vec![0; first.len() + second.len() + 3];
        let mut pair = Pair {
            name,
            first,
            second,
            joined,
        };
        let mut joined = pair.joined.clone();
        assert_eq!(pair.join(&mut joined), 3 * 512, "{}", pair.name);
        let (n, last) = (pair.first.len(), joined.len() - 3);
        let children = [n / 3 - 1, last / 3 - 1].map(|node| node as u32);
        assert!(joined[..n] == pair.first, "{}: the first", pair.name);
        assert!(joined[last] == SEQUENCE && joined[last + 1..] == children);
        pair.joined = joined;
        pair
    }

    pub fn join(&self, joined: &mut [u32]) -> usize {
        engine::join(SEQUENCE, &self.first, &self.second, joined)
    }
}

/// Filters, on demand and not; and tables with all kinds and ops. Each has 256 nodes and 255.
pub fn all() -> Vec<Pair> {
    let filters = Pair::new(
        "32 filters on demand, 32 filters".into(),
        circuits::family(256).table,
        circuits::filters(32),
    );
    let random = |seed: u64| {
        let [first, second] = [256, 255].map(|nodes| circuits::random(nodes, seed).table);
        Pair::new(format!("random {seed}"), first, second)
    };
    [filters].into_iter().chain((1..=4).map(random)).collect()
}
