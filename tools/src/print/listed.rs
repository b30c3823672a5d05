//! Bodies whose sequences the assembler would nest anew: they print as one list.

use super::body::Body;
use crate::text::nesting::{flattest, list, Sequenced, DEPTH};

/// As one list where that is nested like this again, or too deep to be kept as it is. Else the braces of its
/// sequences say how it is nested.
pub fn listed(body: Body) -> Body {
    let right = to_the_right(body.clone());
    let again = || depth(&right) > DEPTH && flattest(right.clone()).1 == body;
    match depth(&body) > DEPTH || again() {
        true => right,
        false => body,
    }
}

fn to_the_right(body: Body) -> Body {
    let mut commands = Vec::new();
    list(body, &mut commands);
    let mut commands = commands
        .into_iter()
        .map(|command| command.with_branches(&mut to_the_right));
    let last = commands.next_back().expect("a body has a command");
    commands.rfold(last, |second, first| Body::joined(first, second))
}

fn depth(body: &Body) -> usize {
    match body {
        Body::Leaf(_) => 1,
        Body::Sequence(first, second) | Body::If(_, first, second) => {
            1 + depth(first).max(depth(second))
        }
    }
}

impl Sequenced for Body {
    fn parts(self) -> Result<(Body, Body), Body> {
        match self {
            Body::Sequence(first, second) => Ok((*first, *second)),
            body => Err(body),
        }
    }

    fn joined(first: Body, second: Body) -> Body {
        Body::Sequence(Box::new(first), Box::new(second))
    }

    fn with_branches(self, change: &mut dyn FnMut(Body) -> Body) -> Body {
        match self {
            Body::If(condition, then, otherwise) => {
                let then = Box::new(change(*then));
                Body::If(condition, then, Box::new(change(*otherwise)))
            }
            body => body,
        }
    }
}
