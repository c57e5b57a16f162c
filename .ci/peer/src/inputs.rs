//! The inputs, as `crates/benchmarks` makes them.

/// The generator splitmix64.
struct Random {
    state: u64,
}

impl Random {
    fn new(seed: u64) -> Random {
        Random { state: seed }
    }

    fn next(&mut self) -> u64 {
        self.state = self.state.wrapping_add(0x9e37_79b9_7f4a_7c15);
        let mut z = self.state;
        z = (z ^ (z >> 30)).wrapping_mul(0xbf58_476d_1ce4_e5b9);
        z = (z ^ (z >> 27)).wrapping_mul(0x94d0_49bb_1331_11eb);
        z ^ (z >> 31)
    }

    /// A number below `n`: the high half of the product of `n` and the next number.
    fn below(&mut self, n: u32) -> u32 {
        ((u128::from(self.next()) * u128::from(n)) >> 64) as u32
    }
}

/// Random pairs of different numbers, the lesser first.
fn ordered(random: &mut Random, nodes: u32, edges: usize) -> Vec<(u32, u32)> {
    let mut pairs = Vec::with_capacity(edges);
    while pairs.len() < edges {
        let i = random.below(nodes);
        let j = random.below(nodes);
        if i != j {
            pairs.push((i.min(j), i.max(j)));
        }
    }
    pairs
}

/// Edges along a random order of the nodes, in random order.
pub fn random_pairs(nodes: u32, edges: usize) -> Vec<(u32, u32)> {
    let mut random = Random::new(1);
    let mut place: Vec<u32> = (0..nodes).collect();
    for i in (1..nodes).rev() {
        place.swap(i as usize, random.below(i + 1) as usize);
    }
    ordered(&mut random, nodes, edges)
        .into_iter()
        .map(|(i, j)| (place[i as usize], place[j as usize]))
        .collect()
}

/// Edges from lower nodes to higher ones, in random order.
pub fn low_high_pairs(nodes: u32, edges: usize) -> Vec<(u32, u32)> {
    ordered(&mut Random::new(1), nodes, edges)
}

/// Edges that lead at most 50 nodes on.
pub fn local_pairs(nodes: u32, edges: usize) -> Vec<(u32, u32)> {
    let mut random = Random::new(1);
    let last = nodes - 1;
    (0..edges)
        .map(|_| {
            let parent = random.below(last);
            let span = (last - parent).min(50);
            (parent, parent + 1 + random.below(span))
        })
        .collect()
}

/// An edge from each node to the next.
pub fn chain_pairs(nodes: u32) -> Vec<(u32, u32)> {
    (1..nodes).map(|child| (child - 1, child)).collect()
}

/// An edge from each node to all later ones.
pub fn complete_pairs(nodes: u32) -> Vec<(u32, u32)> {
    (1..nodes)
        .flat_map(|child| (0..child).map(move |parent| (parent, child)))
        .collect()
}

/// Diamonds of four nodes one after another, each beginning where the one before ends.
pub fn diamond_pairs(nodes: u32) -> Vec<(u32, u32)> {
    (0..(nodes - 1) / 3)
        .flat_map(|k| {
            let top = 3 * k;
            [(0, 1), (0, 2), (1, 3), (2, 3)].map(|(a, b)| (top + a, top + b))
        })
        .collect()
}

/// The nodes that the questions are about.
pub fn asked_pairs(nodes: u32) -> Vec<(u32, u32)> {
    let mut random = Random::new(2);
    (0..100)
        .map(|_| (random.below(nodes), random.below(nodes)))
        .collect()
}

/// How the edges of a graph that may have cycles are chosen.
#[derive(Clone, Copy)]
pub enum Shape {
    /// Between any two nodes.
    Mixed,
    /// Half of them between nodes of a group of ten, and the others to nodes that are no lower.
    Grouped,
    /// From lower nodes to higher ones.
    Acyclic,
}

impl Shape {
    /// The parts of a name: what stands before the shape, and the shape.
    pub fn split(name: &str) -> Option<(&str, Shape)> {
        let (question, shape) = name.rsplit_once('_')?;
        match shape {
            "mixed" => Some((question, Shape::Mixed)),
            "grouped" => Some((question, Shape::Grouped)),
            "acyclic" => Some((question, Shape::Acyclic)),
            _ => None,
        }
    }

    /// The ends of one more edge, if they are chosen well.
    fn pair(self, random: &mut Random, nodes: u32) -> Option<(u32, u32)> {
        let a = random.below(nodes);
        let b = random.below(nodes);
        match self {
            Shape::Mixed => Some((a, b)),
            Shape::Grouped if random.below(2) == 0 => {
                Some((a, (a - a % 10 + b % 10).min(nodes - 1)))
            }
            Shape::Grouped => Some((a.min(b), a.max(b))),
            Shape::Acyclic => (a != b).then_some((a.min(b), a.max(b))),
        }
    }

    pub fn pairs(self, nodes: u32, edges: usize) -> Vec<(u32, u32)> {
        let mut random = Random::new(1);
        std::iter::repeat_with(|| self.pair(&mut random, nodes))
            .flatten()
            .take(edges)
            .collect()
    }
}
