//! The formula of docs/DATASHEET.md for the time of a run: what an attempt may
//! do, counted by terms, and what each term costs.

/// What is done from one state of a run to another, counted by terms.
#[derive(Clone, Copy, Debug, Default)]
pub struct Done {
    /// Attempts.
    pub attempts: usize,
    /// Nodes that searches for a rule's target pass over.
    pub passed: usize,
    /// Parts of attempts.
    pub parts: usize,
    /// Nodes of its type that a searching deconstruct comes to.
    pub starts: usize,
    /// Pairs of patterns, each counted once for each node it is set against.
    pub pairs: usize,
    /// Pairs among them that are a bound variable.
    pub variables: usize,
    /// Nodes of the trees that these are compared with; where they are equal, each
    /// is asked whether it is blank.
    pub compared: usize,
    /// Applications of rules.
    pub applications: usize,
    /// Pairs of replacements and constructs.
    pub filled: usize,
    /// Nodes of the trees built from them.
    pub built: usize,
    /// Nodes of the scopes, arguments and results of operations on sequences.
    pub edited: usize,
    /// Nodes of a scope before the place where a tree is put.
    pub before: usize,
    /// Nodes of a scope from that place on.
    pub behind: usize,
}

/// A term: its name, its count, and what one costs in nanoseconds.
pub type Term = (&'static str, fn(&Done) -> usize, f64);

/// The terms. The costs are those of the machine of the sheet, rounded up until
/// no measured input passes the formula.
pub const TERMS: [Term; 13] = [
    ("attempt", |done| done.attempts, 30.0),
    ("node passed over by a search", |done| done.passed, 0.9),
    ("part of an attempt", |done| done.parts, 15.0),
    (
        "node that a searching deconstruct comes to",
        |done| done.starts,
        10.0,
    ),
    ("pair of a pattern", |done| done.pairs, 2.2),
    ("bound variable among these", |done| done.variables, 2.0),
    ("node compared with it", |done| done.compared, 2.0),
    ("application of a rule", |done| done.applications, 35.0),
    (
        "pair of a construct or replacement",
        |done| done.filled,
        6.0,
    ),
    ("node of the tree built", |done| done.built, 1.5),
    (
        "node of an operation on a sequence, in its scope, arguments and result",
        |done| done.edited,
        3.0,
    ),
    (
        "node before the place of a replacement",
        |done| done.before,
        7.0,
    ),
    ("node from that place on", |done| done.behind, 0.5),
];

/// What the formula says, in nanoseconds.
pub fn formula(done: &Done) -> f64 {
    let terms = TERMS.iter();
    let costs = terms.map(|(_, count, cost)| count(done) as f64 * cost);
    costs.sum()
}

/// The limits of document 01.
const NODES: usize = 2_048;
const PAIRS: usize = 128;
const APPLICATIONS: usize = 4;
const PARTS: usize = 8;

/// A name, and the most that can be done.
pub type Most = (&'static str, Done);

/// The most that each piece of an attempt can do, whatever the input: the
/// attempt with its search and pattern, its replacement, and a part of each kind.
/// What is built stands there without and with operations on sequences.
pub fn most() -> [Most; 8] {
    // Its pattern may be looked at before it is set against the node. To it fall
    // the search that it ends, one after its replacement in which no attempt is
    // made, and the copy of a chain's tree that its replacement makes smaller.
    let attempt = Done {
        attempts: 1,
        passed: 2 * NODES,
        pairs: 2 * PAIRS,
        built: NODES,
        ..set_against_one()
    };
    let placed = |done: Done| Done {
        before: NODES,
        behind: NODES,
        ..done
    };
    let condition = Done {
        parts: 1,
        applications: APPLICATIONS,
        passed: APPLICATIONS * NODES,
        ..Done::default()
    };
    let part = |done: Done| Done { parts: 1, ..done };
    [
        ("attempt, with its search and its pattern", attempt),
        ("replacement, put in place", placed(built())),
        (
            "replacement with operations on sequences",
            placed(built_by_edits()),
        ),
        ("deconstruct", part(set_against_one())),
        (
            "deconstruct that searches",
            part(set_against_all(NODES, PAIRS)),
        ),
        ("construct", part(built())),
        (
            "construct with operations on sequences",
            part(built_by_edits()),
        ),
        ("condition", condition),
    ]
}

/// A pattern set against one node. No two of its pairs come to the same node.
fn set_against_one() -> Done {
    Done {
        starts: 1,
        pairs: PAIRS,
        variables: PAIRS,
        compared: NODES,
        ..Done::default()
    }
}

/// A pattern of so many pairs set against every node of a tree of so many nodes.
/// From different starts a pair comes to different nodes: each pair is set against
/// at most all of them. More can be said of the pairs behind one whose node has two
/// children or more: they are reached from at most half of the nodes, as so many
/// have no children. Before it stands only a row of nodes with one child, of which
/// at most 64 nest, and from one in 64 of the nodes less for each that is passed. So
/// no pattern has more pairs set than one whose first node has two children:
/// 1 + 127 / 2 for each node.
///
/// Of c children each, (c - 1) / c of the pairs can be variables, reached from one
/// in c of the nodes: at most a quarter of the pairs' number for each node, and
/// three quarters more for a pattern that is one variable. The trees that a variable
/// equals in size share no node, so each is compared with no more nodes than there
/// are; with 8 children to a node (7 k + 1) / 8 of k pairs are variables.
pub fn set_against_all(nodes: usize, pairs: usize) -> Done {
    Done {
        starts: nodes,
        pairs: nodes * (2 * pairs).min(PAIRS + 1) / 2,
        variables: nodes * (pairs + 3) / 4,
        compared: nodes * (7 * pairs + 1) / 8,
        ..Done::default()
    }
}

/// A tree built by a construct or a replacement. A chain takes two pairs and one
/// for each application. The trees of chains are parts of the tree, unless an
/// attempt makes them smaller.
fn built() -> Done {
    let chains = PAIRS / (2 + APPLICATIONS);
    Done {
        applications: chains * APPLICATIONS,
        passed: APPLICATIONS * NODES,
        filled: PAIRS,
        built: NODES,
        ..Done::default()
    }
}

/// The same with operations on sequences. Each has an argument or two, so that a
/// chain takes two pairs and two for each operation. An operation makes the tree
/// of its chain smaller without an attempt: so each chain may copy as many nodes
/// as a tree may have, and each rule that it applies may search as many.
fn built_by_edits() -> Done {
    let chains = PAIRS / 4;
    let edits = PAIRS * APPLICATIONS / (2 + 2 * APPLICATIONS);
    let plain = built();
    Done {
        passed: plain.applications * NODES,
        built: (1 + chains) * NODES,
        edited: edits * 3 * NODES,
        ..plain
    }
}

/// The most that one attempt can cost, in nanoseconds: with eight parts and a
/// replacement of the dearest kind.
pub fn dearest_attempt() -> f64 {
    let [attempt, plain, edited, parts @ ..] = most().map(|(_, done)| formula(&done));
    let dearest = parts.into_iter().fold(0.0, f64::max);
    attempt + plain.max(edited) + PARTS as f64 * dearest
}
