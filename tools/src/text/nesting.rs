//! How the sequences of a body nest. `a; b; c` is `a; { b; c }`. That makes a body as deep as it is long, and rule 7
//! has a limit: where a body would be deeper, its sequences are nested so that it is as flat as can be.

use super::tree::{Command, Placed};

/// The depth that the library accepts.
pub const DEPTH: usize = 64;

/// A tree with sequences in it: of the text, or of a print.
pub trait Sequenced: Sized {
    /// The two parts of a sequence, or what is none.
    fn parts(self) -> Result<(Self, Self), Self>;
    fn joined(first: Self, second: Self) -> Self;
    /// The same with each branch of an if changed.
    fn with_branches(self, change: &mut dyn FnMut(Self) -> Self) -> Self;
}

/// The body as it is, or nested anew where it is too deep.
pub fn nested_within(body: Placed<Command>) -> Placed<Command> {
    match depth(&body.node) > DEPTH {
        true => flattest(body).1,
        false => body,
    }
}

/// One for a command without parts, else one more than the deepest part has.
pub fn depth(command: &Command) -> usize {
    match command {
        Command::Sequence(first, second) | Command::If(_, first, second) => {
            1 + depth(&first.node).max(depth(&second.node))
        }
        _ => 1,
    }
}

/// The same commands in the same order, with their least depth.
pub fn flattest<T: Sequenced>(body: T) -> (usize, T) {
    let mut listed = Vec::new();
    list(body, &mut listed);
    let mut depths = Vec::new();
    let commands: Vec<T> = (listed.into_iter())
        .map(|command| {
            let mut deepest = 0;
            let command = command.with_branches(&mut |branch| {
                let (depth, branch) = flattest(branch);
                deepest = deepest.max(depth);
                branch
            });
            depths.push(1 + deepest);
            command
        })
        .collect();
    let most = depths.iter().max().copied().unwrap_or(1);
    let within = |depth: &usize| fitting(&depths, *depth) == depths.len();
    let least = (most..).find(within).expect("some depth is enough");
    (least, joined(commands, &depths, least))
}

/// The commands of nested sequences as one list.
pub fn list<T: Sequenced>(body: T, commands: &mut Vec<T>) {
    match body.parts() {
        Ok((first, second)) => {
            list(first, commands);
            list(second, commands);
        }
        Err(command) => commands.push(command),
    }
}

/// How many of the first commands fit into one of a depth. The first part takes as many as it can, which leaves the
/// fewest for the second.
fn fitting(depths: &[usize], depth: usize) -> usize {
    match depths.first() {
        Some(first) if *first == depth => 1,
        Some(first) if *first < depth => {
            let first = fitting(depths, depth - 1);
            first + fitting(&depths[first..], depth - 1)
        }
        _ => 0,
    }
}

/// Commands that fit into the depth.
fn joined<T: Sequenced>(mut commands: Vec<T>, depths: &[usize], depth: usize) -> T {
    if commands.len() == 1 {
        return commands.remove(0);
    }
    let first = fitting(depths, depth - 1);
    if first == commands.len() {
        return joined(commands, depths, depth - 1);
    }
    let second = commands.split_off(first);
    let first_part = joined(commands, &depths[..first], depth - 1);
    T::joined(first_part, joined(second, &depths[first..], depth - 1))
}

impl Sequenced for Placed<Command> {
    fn parts(self) -> Result<(Self, Self), Self> {
        match self.node {
            Command::Sequence(first, second) => Ok((*first, *second)),
            node => Err(Placed { at: self.at, node }),
        }
    }

    fn joined(first: Self, second: Self) -> Self {
        Placed {
            at: first.at,
            node: Command::Sequence(Box::new(first), Box::new(second)),
        }
    }

    fn with_branches(self, change: &mut dyn FnMut(Self) -> Self) -> Self {
        let node = match self.node {
            Command::If(condition, then, otherwise) => {
                let then = Box::new(change(*then));
                Command::If(condition, then, Box::new(change(*otherwise)))
            }
            node => node,
        };
        Placed { at: self.at, node }
    }
}

#[cfg(test)]
mod tests {
    use super::*;

    /// Lists of commands of these depths, and sequences of them.
    #[derive(Clone, Debug, PartialEq)]
    enum Tree {
        Deep(usize),
        Pair(Box<Tree>, Box<Tree>),
    }

    impl Sequenced for Tree {
        fn parts(self) -> Result<(Tree, Tree), Tree> {
            match self {
                Tree::Pair(first, second) => Ok((*first, *second)),
                tree => Err(tree),
            }
        }

        fn joined(first: Tree, second: Tree) -> Tree {
            Tree::Pair(Box::new(first), Box::new(second))
        }

        fn with_branches(self, change: &mut dyn FnMut(Tree) -> Tree) -> Tree {
            if let Tree::Deep(depth @ 2..) = self {
                change(Tree::Deep(depth - 1));
            }
            self
        }
    }

    fn depth_of(tree: &Tree) -> usize {
        match tree {
            Tree::Deep(depth) => *depth,
            Tree::Pair(first, second) => 1 + depth_of(first).max(depth_of(second)),
        }
    }

    /// By trying every place where a list may be parted.
    fn least(depths: &[usize]) -> usize {
        if let [depth] = depths {
            return *depth;
        }
        let parted = (1..depths.len()).map(|at| {
            let (first, second) = depths.split_at(at);
            1 + least(first).max(least(second))
        });
        parted.min().expect("a list that is not empty")
    }

    #[test]
    fn no_nesting_is_flatter() {
        let mut lists: Vec<Vec<usize>> = vec![Vec::new()];
        for _ in 0..6 {
            let longer = |list: &Vec<usize>| {
                let list = list.clone();
                (1..=4).map(move |depth| [list.clone(), vec![depth]].concat())
            };
            lists = lists.iter().flat_map(longer).collect();
            for depths in &lists {
                let all = depths.iter().map(|depth| Tree::Deep(*depth));
                let (depth, tree) = flattest(all.clone().reduce(Tree::joined).unwrap());
                let expected = least(depths);
                assert_eq!((depth, depth_of(&tree)), (expected, expected), "{depths:?}");
                let mut again = Vec::new();
                list(tree, &mut again);
                assert_eq!(again, all.collect::<Vec<_>>());
            }
        }
    }
}
