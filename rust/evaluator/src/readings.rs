//! Which nodes a node reads by `13` (document 02, R-3): refusal 25, and the
//! order in which an iteration updates the nodes.

use crate::answer::{Fault, Refusal};
use crate::syntax::{Expression, File};
use std::collections::BTreeSet;

/// For each node those that its update names by `13`, in arms that are never
/// taken too.
struct Readings(Vec<BTreeSet<usize>>);

impl Readings {
    fn of(file: &File) -> Readings {
        let read = |expression: &Expression| {
            let mut channels = BTreeSet::new();
            add_channels(expression, &mut channels);
            let nodes = channels.into_iter().filter_map(|at| file.channel_node(at));
            nodes.collect()
        };
        Readings(file.nodes.iter().map(|node| read(&node.update)).collect())
    }

    /// Whether a node reads itself, directly or by others.
    fn reads_itself(&self, node: usize) -> bool {
        let mut found = BTreeSet::new();
        let mut waiting = vec![node];
        while let Some(reader) = waiting.pop() {
            let read = self.0[reader].iter().copied();
            waiting.extend(read.filter(|read| found.insert(*read)));
        }
        found.contains(&node)
    }

    /// Whether a node is not yet done, and all that it reads are.
    fn is_next(&self, node: usize, done: &[usize]) -> bool {
        !done.contains(&node) && self.0[node].iter().all(|read| done.contains(read))
    }
}

/// Adds the channels that an expression names by `13`.
fn add_channels(expression: &Expression, channels: &mut BTreeSet<usize>) {
    if let Expression::Channel(at) = expression {
        channels.insert(*at);
    }
    for part in expression.parts() {
        add_channels(part, channels);
    }
}

/// Refusal 25: the lowest node that reads itself. One that only reads such a
/// node is passed over.
pub fn check(file: &File) -> Result<(), Fault> {
    let readings = Readings::of(file);
    match (0..file.nodes.len()).find(|node| readings.reads_itself(*node)) {
        Some(node) => {
            let frame = file.channel_frame(file.node_channel(node));
            Err(Refusal::ReadsItself.in_frame(frame))
        }
        None => Ok(()),
    }
}

/// Again and again the lowest node not yet done whose readings are all done.
/// Each node comes once where none reads itself.
pub fn order(file: &File) -> Vec<usize> {
    let readings = Readings::of(file);
    let nodes = 0..file.nodes.len();
    let mut done = Vec::with_capacity(nodes.len());
    while let Some(next) = nodes.clone().find(|node| readings.is_next(*node, &done)) {
        done.push(next);
    }
    done
}
