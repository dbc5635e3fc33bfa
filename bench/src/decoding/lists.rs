//! The commands of lists, and the graph that they leave.

use crate::families::shuffled;
use mastpickle_trials::generate::{with_density, Rng};
use mastpickle_trials::reference::{vertices, SignedGraph};
use std::collections::BTreeMap;

/// How a list opens.
#[derive(Clone, Copy)]
pub enum Opening {
    EdgeList,
    AmendmentList,
}

impl Opening {
    pub fn name(self) -> &'static str {
        match self {
            Opening::EdgeList => "edge lists",
            Opening::AmendmentList => "amendment lists",
        }
    }

    fn byte(self) -> u8 {
        match self {
            Opening::EdgeList => 0x10,
            Opening::AmendmentList => 0x11,
        }
    }
}

/// What a command says.
#[derive(Clone, Copy)]
enum Command {
    /// That two vertices have an edge, positive or not, or that they have none.
    Pair(u8, u8, Option<bool>),
    Mask(u8),
}

impl Command {
    /// A command about two vertices, in either order.
    fn pair(rng: &mut Rng, a: u64, b: u64, edge: Option<bool>) -> Command {
        let (a, b) = if rng.chance(50) { (b, a) } else { (a, b) };
        Command::Pair(a as u8, b as u8, edge)
    }
}

/// Commands on n vertices.
pub struct Commands {
    n: u64,
    commands: Vec<Command>,
}

impl Commands {
    /// The edges and the masks of a graph, in random order.
    fn of_graph(rng: &mut Rng, graph: &SignedGraph) -> Commands {
        let edges = graph.edges().into_iter();
        let edges = edges.map(|(a, b, positive)| Command::pair(rng, a, b, Some(positive)));
        let mut commands: Vec<Command> = edges.collect();
        let masked = vertices(graph.masked).into_iter();
        commands.extend(masked.map(|v| Command::Mask(v as u8)));
        rng.shuffle(&mut commands);
        Commands {
            n: graph.n,
            commands,
        }
    }

    pub fn count(&self) -> usize {
        self.commands.len()
    }

    /// The list of the commands under an opening.
    pub fn list(&self, opening: Opening) -> Vec<u8> {
        let mut bytes = vec![opening.byte(), self.n as u8];
        for &command in &self.commands {
            match command {
                Command::Pair(a, b, Some(true)) => bytes.extend([0x21, a, b]),
                Command::Pair(a, b, Some(false)) => bytes.extend([0x22, a, b]),
                Command::Mask(a) => bytes.extend([0x23, a]),
                Command::Pair(a, b, None) => bytes.extend([0x24, a, b]),
            }
        }
        bytes.push(0xff);
        bytes
    }

    /// The graph that the commands leave: of those about two vertices the last says whether these have an edge.
    pub fn graph(&self) -> SignedGraph {
        let mut graph = SignedGraph::new(self.n);
        let mut last = BTreeMap::new();
        for &command in &self.commands {
            match command {
                Command::Pair(a, b, edge) => {
                    last.insert((a.min(b), a.max(b)), edge);
                }
                Command::Mask(a) => graph.mask(a.into()),
            }
        }
        for ((a, b), edge) in last {
            if let Some(positive) = edge {
                graph.add(a.into(), b.into(), positive);
            }
        }
        graph
    }
}

/// A family of graphs whose lists either opening allows.
pub struct Family {
    pub name: &'static str,
    make: fn(&mut Rng) -> SignedGraph,
}

impl Family {
    /// The commands of so many lists, each of another graph.
    pub fn lists(&self, count: u64) -> Vec<Commands> {
        let commands = |i| {
            let rng = &mut Rng::of_case(4, i);
            let graph = (self.make)(rng);
            Commands::of_graph(rng, &graph)
        };
        (0..count).map(commands).collect()
    }
}

/// The family that longer amendment lists are measured beside.
pub const ALL_EDGES: Family = Family {
    name: "all edges",
    make: |rng| with_density(rng, 64, 100, 50),
};

pub const FAMILIES: [Family; 5] = [
    ALL_EDGES,
    Family {
        name: "uniform, 50 %",
        make: |rng| with_density(rng, 64, 50, 50),
    },
    Family {
        name: "uniform, 50 %, all masked",
        make: |rng| {
            let mut graph = with_density(rng, 64, 50, 50);
            graph.masked = u64::MAX;
            graph
        },
    },
    Family {
        name: "no edge, half masked",
        make: |rng| {
            let mut graph = SignedGraph::new(64);
            shuffled(rng)[..32].iter().for_each(|&v| graph.mask(v));
            graph
        },
    },
    Family {
        name: "8 vertices, all edges",
        make: |rng| with_density(rng, 8, 100, 50),
    },
];

/// A kind of commands that only an amendment list can have, about pairs of 64 vertices chosen at random again and again.
pub struct Kind {
    pub name: &'static str,
    edge: fn(&mut Rng) -> Option<bool>,
}

impl Kind {
    pub fn commands(&self, count: usize) -> Commands {
        let rng = &mut Rng::new(5);
        let pairs = with_density(rng, 64, 100, 0).edges();
        let command = |_| {
            let (a, b, _) = rng.pick(&pairs);
            let edge = (self.edge)(rng);
            Command::pair(rng, a, b, edge)
        };
        Commands {
            n: 64,
            commands: (0..count).map(command).collect(),
        }
    }
}

pub const KINDS: [Kind; 2] = [
    Kind {
        name: "edges given again",
        edge: |rng| Some(rng.chance(50)),
    },
    Kind {
        name: "a third erasures",
        edge: |rng| match rng.below(3) {
            0 => None,
            sign => Some(sign == 1),
        },
    },
];
