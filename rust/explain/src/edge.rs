//! The edges of an execution graph.

/// The relations between events whose closure is SC order.
#[derive(Clone, Copy, Debug, PartialEq, Eq, Hash)]
pub enum Relation {
    /// po: "thread order (starting writes before all others)"
    ProgramOrder,
    /// rf: from a write to a read of it
    ReadsFrom,
    /// mo: from a write to a later one of its location
    ModificationOrder,
    /// fr: "a read to every write later than the one it read, itself excepted"
    FromRead,
}

/// A relation between two events, each a place in [`Execution::events`](crate::Execution::events).
#[derive(Clone, Copy, Debug, PartialEq, Eq, Hash)]
pub struct Edge {
    /// The event that comes before.
    pub from: usize,
    /// The event that comes after.
    pub to: usize,
    /// By which relation.
    pub relation: Relation,
}
