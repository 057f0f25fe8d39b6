//! The relations of a graph: what they are called and how they are drawn.

use explain::Relation;

/// How a relation is shown. No two look the same without colour.
pub struct Look {
    /// The relation.
    pub relation: Relation,
    /// What stands at its edges.
    pub short: &'static str,
    /// Its name.
    pub name: &'static str,
    /// Where its edges lead, for the legend.
    pub meaning: &'static str,
    /// Its colour on white and on black. They are those of herd7 (po black, rf red, co blue, fr #ffa040), made darker
    /// or lighter where the ground asks for it.
    pub colours: [&'static str; 2],
    /// The dashes of its edges in SVG.
    pub dashes: &'static str,
    /// The same for graphviz, which has no dashes and dots in turn.
    pub style: &'static str,
    /// The head of its edges for graphviz.
    pub head: &'static str,
}

const READS_FROM: Look = Look {
    relation: Relation::ReadsFrom,
    short: "rf",
    name: "reads-from",
    meaning: "from a write to its readers",
    colours: ["#c8001e", "#ff7a7a"],
    dashes: "9 3",
    style: "dashed",
    head: "normal",
};

/// The relations in the order of the legend.
pub const LOOKS: [Look; 4] = [
    Look {
        relation: Relation::ProgramOrder,
        short: "po",
        name: "program order",
        meaning: "to the next access of the thread",
        colours: ["#333333", "#d4d4d4"],
        dashes: "none",
        style: "solid",
        head: "normal",
    },
    READS_FROM,
    Look {
        relation: Relation::ModificationOrder,
        short: "mo",
        name: "modification order",
        meaning: "to the next write (herd: co)",
        colours: ["#1748d1", "#86b2ff"],
        dashes: "3 3",
        style: "dotted",
        head: "normal",
    },
    Look {
        relation: Relation::FromRead,
        short: "fr",
        name: "from-read",
        meaning: "to the write after the one read",
        colours: ["#a35200", "#ffa040"],
        dashes: "9 3 2 3",
        style: "solid",
        head: "empty",
    },
];

/// How fences are shown that come one after another. Each reads the one before it, so that their edges are drawn as
/// those of reads-from.
pub const FENCE_ORDER: Look =
    Look { short: "fo", name: "fence order", meaning: "from a fence to a later one", ..READS_FROM };

/// How the relation is shown.
pub fn look(relation: Relation) -> &'static Look {
    LOOKS.iter().find(|look| look.relation == relation).expect("each relation has its look")
}
