//! Why a pruning was answered as it was, where the number alone does not tell, and the result once more: state by
//! state, with each body walked from its first command. Each reason has to be met.

use super::tally::Tally;
use crate::answer::Answer;
use crate::reference::image::{CONSTANT, FALL, GOTO, IF, SEQUENCE};
use crate::reference::limits::{DIRECTORY_BYTES, PARAMETER_LABEL};
use crate::table::{Family, Node, Table};
use std::collections::{BTreeMap, BTreeSet};

/// A design, where its states lead, and which of them are reached.
pub struct Pruned {
    pub table: Table,
    /// The falls and gotos of each state.
    leads: Vec<Leads>,
    pub reached: Vec<bool>,
    /// Passes over the states in their order, as long as one reached some more.
    passes: usize,
}

struct Leads {
    /// The default child, of a state that holds a fall.
    fall: Option<usize>,
    gotos: BTreeSet<usize>,
}

impl Leads {
    /// From these commands of a state.
    fn of(table: &Table, state: usize, commands: impl Iterator<Item = Node>) -> Leads {
        let mut leads = Leads {
            fall: None,
            gotos: BTreeSet::new(),
        };
        for node in commands {
            match node.kind {
                FALL => leads.fall = table.children(state).first().copied().map(usize::from),
                GOTO => {
                    leads.gotos.insert(node.which.into());
                }
                _ => {}
            }
        }
        leads
    }

    fn all(&self) -> impl Iterator<Item = usize> + '_ {
        self.fall.into_iter().chain(self.gotos.iter().copied())
    }
}

impl Pruned {
    /// Expects an image that passes the checks up to 8.
    pub fn of(image: &[u8]) -> Pruned {
        let table = Table::open(image).expect("an image with good sections");
        let leads: Vec<Leads> = (0..table.states.len())
            .map(|state| Leads::of(&table, state, commands_of(&table, state)))
            .collect();
        let (reached, passes) = passed(&leads);
        Pruned {
            table,
            leads,
            reached,
            passes,
        }
    }

    fn states(&self) -> impl Iterator<Item = usize> + '_ {
        0..self.reached.len()
    }

    fn kept(&self) -> impl Iterator<Item = usize> + '_ {
        self.states().filter(|&state| self.reached[state])
    }

    fn dropped(&self) -> impl Iterator<Item = usize> + '_ {
        self.states().filter(|&state| !self.reached[state])
    }

    pub fn drops(&self) -> bool {
        self.dropped().next().is_some()
    }

    fn parent(&self, state: usize) -> usize {
        self.table.states[state].parent.into()
    }

    /// The new number of a state that is kept.
    pub fn number(&self, state: u8) -> u8 {
        let below = &self.reached[..usize::from(state)];
        below.iter().filter(|&&reached| reached).count() as u8
    }

    fn moves(&self, state: usize) -> bool {
        usize::from(self.number(state as u8)) != state
    }

    /// The numbers of the nodes of all bodies that are kept.
    fn nodes(&self, family: Family) -> BTreeSet<u16> {
        let nodes = self.kept().flat_map(|state| self.table.nodes_of(state));
        let of_family = nodes.filter(|(of, _)| *of == family);
        of_family.map(|(_, number)| number).collect()
    }

    /// The result.
    pub fn image(&self) -> Vec<u8> {
        let renumbered = |family| -> BTreeMap<u16, u16> {
            let nodes = self.nodes(family).into_iter();
            nodes.zip(0..).collect()
        };
        let (commands, expressions) = (renumbered(Family::Command), renumbered(Family::Expression));
        let mut result = Table::new(&self.table.rows);
        result.registers.clone_from(&self.table.registers);
        for state in self.kept() {
            let mut record = self.table.states[state];
            record.parent = self.number(record.parent);
            record.command = commands[&record.command];
            result.states.push(record);
        }
        for &number in commands.keys() {
            let mut node = self.table.commands[usize::from(number)];
            if node.kind == GOTO {
                node.which = self.number(node.which);
            }
            if let Some(part) = node.expression() {
                *part = expressions[part];
            }
            for part in node.own_parts(Family::Command) {
                *part = commands[part];
            }
            result.commands.push(node);
        }
        for &number in expressions.keys() {
            let mut node = self.table.expressions[usize::from(number)];
            for part in node.own_parts(Family::Expression) {
                *part = expressions[part];
            }
            result.expressions.push(node);
        }
        result.image()
    }

    /// The gotos of the bodies that are kept.
    fn kept_gotos(&self) -> Vec<Node> {
        let commands = self
            .kept()
            .flat_map(|state| commands_of(&self.table, state));
        commands.filter(|node| node.kind == GOTO).collect()
    }

    /// Some state is kept only for a branch that a constant shuts.
    fn keeps_shut(&self) -> bool {
        let leads: Vec<Leads> = (self.states())
            .map(|state| {
                let open = open_commands(&self.table, self.table.states[state].command);
                Leads::of(&self.table, state, open.into_iter())
            })
            .collect();
        passed(&leads).0 != self.reached
    }
}

fn commands_of(table: &Table, state: usize) -> impl Iterator<Item = Node> + '_ {
    let nodes = table.nodes_of(state).into_iter();
    let commands = nodes.filter(|(family, _)| *family == Family::Command);
    commands.map(|(_, number)| table.commands[usize::from(number)])
}

/// The commands of a body without the branches that a constant shuts.
fn open_commands(table: &Table, number: u16) -> Vec<Node> {
    let node = table.commands[usize::from(number)];
    let mut open = vec![node];
    match node.kind {
        SEQUENCE => {
            open.extend(open_commands(table, node.a));
            open.extend(open_commands(table, node.b));
        }
        IF => {
            let condition = table.expressions[usize::from(node.a)];
            let value =
                (condition.kind == CONSTANT).then_some((condition.b, condition.c) != (0, 0));
            for (part, taken_by) in [(node.b, true), (node.c, false)] {
                if value.is_none_or(|value| value == taken_by) {
                    open.extend(open_commands(table, part));
                }
            }
        }
        _ => {}
    }
    open
}

fn passed(leads: &[Leads]) -> (Vec<bool>, usize) {
    let mut reached = vec![false; leads.len()];
    reached[0] = true;
    let mut passes = 0;
    loop {
        let before = reached.clone();
        for (state, leads) in leads.iter().enumerate() {
            if reached[state] {
                for next in leads.all() {
                    reached[next] = true;
                }
            }
        }
        if reached == before {
            return (reached, passes);
        }
        passes += 1;
    }
}

/// Of a refused image: the whole is judged, not what would be left of it.
pub fn note_refused(tally: &mut Tally, image: &[u8], length: usize, answer: Answer) {
    tally.note("an image refused, no bytes", length == 0);
    tally.note("an image refused, long enough", length >= image.len());
    if matches!(answer.number, 10..=12 | 16) {
        let pruned = Pruned::of(image);
        let kept = pruned.nodes(Family::Command);
        let is_kept = kept.contains(&(answer.place as u16));
        tally.note("an image refused for a state that is reached", is_kept);
        tally.note("an image refused for one that is not", !is_kept);
    }
}

/// The area as it was lent, and what was answered: 0 or 24.
pub fn note_pruned(
    tally: &mut Tally,
    image: &[u8],
    length: usize,
    answer: Answer,
    pruned: &Pruned,
) {
    let drops = pruned.drops();
    let right = pruned.image().len();
    if answer.number == 24 {
        tally.note("24, nothing to drop", !drops);
        tally.note("24, something to drop", drops);
        tally.note("24, no bytes", length == 0);
        tally.note(
            "24, less than a directory",
            (1..DIRECTORY_BYTES).contains(&length),
        );
        tally.note("24, a byte too few", length + 1 == right);
        return;
    }
    let longer = length > right;
    tally.note("accepted, nothing dropped", !drops);
    tally.note("accepted, something dropped", drops);
    tally.note(
        "accepted, exactly as long, nothing dropped",
        length == right && !drops,
    );
    tally.note(
        "accepted, exactly as long, something dropped",
        length == right && drops,
    );
    tally.note("accepted, a byte too many", length == right + 1);
    tally.note(
        "accepted, between result and image",
        longer && length < image.len(),
    );
    tally.note(
        "accepted, as long as the image, something dropped",
        longer && length == image.len(),
    );
    tally.note("accepted, longer than the image", length > image.len());
    note_passes(tally, pruned);
    note_dropped(tally, pruned);
    note_nodes(tally, pruned);
    note_kept(tally, pruned);
}

fn note_passes(tally: &mut Tally, pruned: &Pruned) {
    tally.note("reached in one pass", pruned.passes == 1);
    tally.note("reached in two passes", pruned.passes == 2);
    tally.note("reached in three passes or more", pruned.passes > 2);
    tally.note(
        "kept, a branch that a constant shuts leads there",
        pruned.keeps_shut(),
    );
    let many = pruned.kept().count() > 8;
    tally.note(
        "more than 8 states, nothing dropped",
        many && !pruned.drops(),
    );
    tally.note(
        "more than 8 states kept, something dropped",
        many && pruned.drops(),
    );
}

fn note_dropped(tally: &mut Tally, pruned: &Pruned) {
    let kept = |state: usize| pruned.reached[state];
    let mut note = |reason, is_so: &dyn Fn(usize) -> bool| {
        tally.note(reason, pruned.dropped().any(is_so));
    };
    let goes_to_dropped = |state: usize| {
        let gotos = pruned.leads[state].gotos.iter().copied();
        gotos.filter(move |&next| next != state && !kept(next))
    };
    note("dropped, goes to a kept one", &|state| {
        pruned.leads[state].gotos.iter().any(|&next| kept(next))
    });
    note("dropped, child of a kept one without a fall", &|state| {
        let parent = pruned.parent(state);
        kept(parent) && pruned.leads[parent].fall.is_none()
    });
    note("dropped, goes to a dropped sibling", &|state| {
        goes_to_dropped(state).next().is_some()
    });
    note("dropped, goes to one that goes to a third", &|state| {
        let thirds = goes_to_dropped(state).flat_map(goes_to_dropped);
        thirds.into_iter().any(|third| third != state)
    });
    note("dropped, falls to its child", &|state| {
        pruned.leads[state].fall.is_some()
    });
    note("dropped, child of a child of a dropped one", &|state| {
        let parent = pruned.parent(state);
        !kept(parent) && !kept(pruned.parent(parent))
    });
    note("dropped, has parameters", &|state| {
        pruned.table.states[state].count > 0
    });
    note("dropped, goes with arguments to a kept one", &|state| {
        let gotos = &pruned.leads[state].gotos;
        let takes = |&next: &usize| kept(next) && pruned.table.states[next].count > 0;
        gotos.iter().any(takes)
    });
    note("dropped, between two kept siblings", &|state| {
        let siblings = pruned.table.children(pruned.parent(state));
        let kept = |range: &dyn Fn(usize) -> bool| {
            let mut siblings = siblings.iter().map(|&sibling| usize::from(sibling));
            siblings.any(|sibling| range(sibling) && pruned.reached[sibling])
        };
        kept(&|sibling| sibling < state) && kept(&|sibling| sibling > state)
    });
}

fn note_nodes(tally: &mut Tally, pruned: &Pruned) {
    let table = &pruned.table;
    let commands = pruned.nodes(Family::Command);
    let expressions = pruned.nodes(Family::Expression);
    let begins_behind = |kept: &BTreeSet<u16>| kept.first().is_some_and(|&first| first > 0);
    let ends_before = |kept: &BTreeSet<u16>, count: usize| {
        let last = kept.last().copied().map(usize::from);
        last.is_some_and(|last| last + 1 < count)
    };
    let has_gap = |kept: &BTreeSet<u16>| {
        let mut pairs = kept.iter().zip(kept.iter().skip(1));
        pairs.any(|(one, next)| next - one > 1)
    };
    let all = (table.commands.len(), table.expressions.len());
    tally.note("dropped, the first command", begins_behind(&commands));
    tally.note("dropped, commands between kept ones", has_gap(&commands));
    tally.note("dropped, the last command", ends_before(&commands, all.0));
    tally.note("dropped, the first expression", begins_behind(&expressions));
    tally.note(
        "dropped, expressions between kept ones",
        has_gap(&expressions),
    );
    tally.note(
        "dropped, the last expression",
        ends_before(&expressions, all.1),
    );
    tally.note(
        "dropped, all expressions",
        all.1 > 0 && expressions.is_empty(),
    );
    let none = pruned.drops() && expressions.len() == all.1;
    tally.note("dropped, states without an expression", none);
    let bodies = pruned.kept().map(|state| table.states[state].command);
    tally.note(
        "kept, bodies in another order than their states",
        !bodies.is_sorted(),
    );
}

fn note_kept(tally: &mut Tally, pruned: &Pruned) {
    let mut note = |reason, is_so: &dyn Fn(usize) -> bool| {
        tally.note(reason, pruned.kept().any(is_so));
    };
    let states = &pruned.table.states;
    note("kept, under another number", &|state| pruned.moves(state));
    note("kept, its parent under another number", &|state| {
        pruned.moves(pruned.parent(state))
    });
    note("kept, with parameters and under another number", &|state| {
        states[state].count > 0 && pruned.moves(state)
    });
    note("kept, with a parameter's label", &|state| {
        states[state].label >= PARAMETER_LABEL
    });
    note("kept, all its children dropped", &|state| {
        let children = pruned.table.children(state);
        let mut kept = children
            .iter()
            .map(|&child| pruned.reached[usize::from(child)]);
        !children.is_empty() && kept.all(|kept| !kept)
    });
    let gotos = pruned.kept_gotos();
    let goes = |takes: bool| {
        gotos.iter().any(|node| {
            let named = usize::from(node.which);
            pruned.moves(named) && (states[named].count > 0) == takes
        })
    };
    tally.note("kept, a goto to another number", goes(false));
    tally.note("kept, a goto with arguments to another number", goes(true));
}
