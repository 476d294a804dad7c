//! The largest flow and the least cut, against every cut of small networks.

use reference::cut::{Network, UNLIMITED};
use reference::random::Random;

const SOURCE: usize = 0;
const SINK: usize = 1;

/// From, to, and what can be carried there and back.
type Joined = (usize, usize, u64, u64);

/// What can be carried out of a set of nodes, one bit a node.
fn cut(joined: &[Joined], set: u32) -> u64 {
    let holds = |node: usize| set >> node & 1 == 1;
    let out = |&(from, to, there, back): &Joined| match (holds(from), holds(to)) {
        (true, false) => there,
        (false, true) => back,
        _ => 0,
    };
    joined.iter().map(out).sum()
}

/// The sets of nodes with the source and without the sink.
fn all_sets(nodes: usize) -> impl Iterator<Item = u32> {
    (0..1u32 << nodes).filter(|set| set >> SOURCE & 1 == 1 && set >> SINK & 1 == 0)
}

#[test]
fn every_cut() {
    let mut random = Random::new(7);
    for _ in 0..20_000 {
        let nodes = random.between(2, 7);
        let most = random.pick(&[1, 4, 100]);
        let mut any = || {
            let from = random.below(nodes);
            let to = (from + random.between(1, nodes - 1)) % nodes;
            let there =
                if random.one_in(9) && (from, to) != (SOURCE, SINK) { UNLIMITED } else { random.below(most) as u64 };
            (from, to, there, random.below(most) as u64)
        };
        let joined: Vec<Joined> = (0..2 * nodes).map(|_| any()).collect();
        check(nodes, &joined);
    }
}

fn check(nodes: usize, joined: &[Joined]) {
    let mut network = Network::new(nodes);
    let arcs: Vec<usize> = joined.iter().map(|&(from, to, there, back)| network.join(from, to, there, back)).collect();
    let reached = network.fill(SOURCE, SINK);
    let mut left = vec![0; nodes];
    for (&arc, &(from, to, there, back)) in arcs.iter().zip(joined) {
        let carried = network.carried(arc);
        assert!(-(back as i64) <= carried && carried <= there as i64);
        left[from] += carried;
        left[to] -= carried;
    }
    assert!((2..nodes).all(|node| left[node] == 0), "what comes in goes out");
    let least = all_sets(nodes).map(|set| cut(joined, set)).min().unwrap();
    assert_eq!((left[SOURCE], left[SINK]), (least as i64, -(least as i64)));
    let smallest = all_sets(nodes).filter(|&set| cut(joined, set) == least).fold(u32::MAX, |all, set| all & set);
    let side = (0..nodes).filter(|&node| reached[node]).fold(0, |side, node| side | 1 << node);
    assert_eq!(side, smallest, "{joined:?}");
}
