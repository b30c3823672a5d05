//! What a node is made of.

use super::image::*;

/// The commands that a command is made of, the first part first.
pub fn command_parts(node: &Node) -> Vec<u16> {
    match node.kind {
        SEQUENCE => vec![node.a, node.b],
        IF => vec![node.b, node.c],
        _ => Vec::new(),
    }
}

/// The expression that a command uses.
pub fn expression_of(node: &Node) -> Option<u16> {
    matches!(node.kind, ASSIGN | IF).then_some(node.a)
}

pub fn expression_parts(node: &Node) -> Vec<u16> {
    match node.kind {
        CONSTANT | READ => Vec::new(),
        _ => vec![node.a, node.b],
    }
}
