//! The largest flow from a source to a sink, by shortest paths that have room, and the least cut that comes with it.

/// An arc and the one against it stand side by side: of an even number and the next.
struct Arc {
    to: usize,
    /// What it can carry, and what more it can carry now.
    capacity: u64,
    room: u64,
}

pub struct Network {
    arcs: Vec<Arc>,
    /// The arcs that leave each node.
    leaving: Vec<Vec<usize>>,
}

/// More than any sum of capacities that are not so large themselves.
pub const UNLIMITED: u64 = 1 << 60;

impl Network {
    pub fn new(nodes: usize) -> Network {
        Network { arcs: Vec::new(), leaving: vec![Vec::new(); nodes] }
    }

    /// Joins two nodes by what can be carried there and back, and tells the arc's number.
    pub fn join(&mut self, from: usize, to: usize, there: u64, back: u64) -> usize {
        let number = self.arcs.len();
        self.arcs.push(Arc { to, capacity: there, room: there });
        self.arcs.push(Arc { to: from, capacity: back, room: back });
        self.leaving[from].push(number);
        self.leaving[to].push(number + 1);
        number
    }

    /// Carries as much as can be. The nodes that the source still reaches are the smallest side of a least cut.
    pub fn fill(&mut self, source: usize, sink: usize) -> Vec<bool> {
        loop {
            let via = self.search(source, sink);
            let Some(path) = self.path(&via, source, sink) else {
                return (0..via.len()).map(|node| node == source || via[node].is_some()).collect();
            };
            let amount = path.iter().map(|&arc| self.arcs[arc].room).min().expect("the sink is not the source");
            for arc in path {
                self.arcs[arc].room -= amount;
                self.arcs[arc ^ 1].room += amount;
            }
        }
    }

    /// What an arc carries; below 0 if it is carried back.
    pub fn carried(&self, arc: usize) -> i64 {
        self.arcs[arc].capacity as i64 - self.arcs[arc].room as i64
    }

    /// By which arc each node is reached first from the source, nearest nodes first, until the sink is reached.
    fn search(&self, source: usize, sink: usize) -> Vec<Option<usize>> {
        let mut via = vec![None; self.leaving.len()];
        let mut met = vec![source];
        let mut next = 0;
        while let Some(&node) = met.get(next).filter(|_| via[sink].is_none()) {
            for &arc in &self.leaving[node] {
                let Arc { to, room, .. } = self.arcs[arc];
                if room > 0 && to != source && via[to].is_none() {
                    via[to] = Some(arc);
                    met.push(to);
                }
            }
            next += 1;
        }
        via
    }

    /// The arcs to the sink, the last one first, if it is reached.
    fn path(&self, via: &[Option<usize>], source: usize, sink: usize) -> Option<Vec<usize>> {
        let (mut arcs, mut node) = (Vec::new(), sink);
        while node != source {
            let arc = via[node]?;
            arcs.push(arc);
            node = self.arcs[arc ^ 1].to;
        }
        Some(arcs)
    }
}
