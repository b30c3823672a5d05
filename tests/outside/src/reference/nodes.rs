//! Nodes: fields, uses and depth (refusals 5 to 7).

use super::image::*;
use super::limits::*;
use super::refusal::Refusal;
use super::scopes::parameter;

/// Refusal 5: node kind, unused byte, or part, register or state number.
pub fn judge_fields(image: &Image) -> Result<(), Refusal> {
    for (number, node) in image.commands().enumerate() {
        if !command_holds(image, number, node) {
            return Err(Refusal::new(5, number));
        }
    }
    for (number, node) in image.expressions().enumerate() {
        if !expression_holds(image, number, node) {
            return Err(Refusal::new(5, EXPRESSION_PLACE + number));
        }
    }
    Ok(())
}

fn command_holds(image: &Image, number: usize, node: Node) -> bool {
    let Node { which, a, b, c, .. } = node;
    let below = |part: u16| usize::from(part) < number;
    let expression = |part: u16| usize::from(part) < image.expressions().len();
    match node.kind {
        SKIP | FALL => which == 0 && a == 0 && b == 0 && c == 0,
        ASSIGN => names_register(image, which) && expression(a) && b == 0 && c == 0,
        SEQUENCE => which == 0 && below(a) && below(b) && c == 0,
        // Its fields a and b carry arguments, which 16 and 19 judge.
        GOTO => usize::from(which) < image.states().len() && c == 0,
        IF => which == 0 && expression(a) && below(b) && below(c),
        _ => false,
    }
}

fn expression_holds(image: &Image, number: usize, node: Node) -> bool {
    let Node { which, a, b, c, .. } = node;
    let below = |part: u16| usize::from(part) < number;
    match node.kind {
        CONSTANT => which == 0 && a == 0,
        READ => names_register(image, which) && a == 0 && b == 0 && c == 0,
        2..=LAST_OPERATION => which == 0 && below(a) && below(b) && c == 0,
        _ => false,
    }
}

/// A register, or a parameter; whether that is in scope is 19's to say.
fn names_register(image: &Image, byte: u8) -> bool {
    usize::from(byte) < image.registers().len() || parameter(byte, PARAMETER_REGISTER).is_some()
}

/// How often each node is used, and its depth.
pub struct Survey {
    commands: Family<MOST_COMMANDS>,
    expressions: Family<MOST_EXPRESSIONS>,
}

struct Family<const MOST: usize> {
    count: usize,
    uses: [u8; MOST],
    depths: [u8; MOST],
}

impl<const MOST: usize> Family<MOST> {
    fn new(count: usize) -> Family<MOST> {
        Family {
            count,
            uses: [0; MOST],
            depths: [1; MOST],
        }
    }

    fn mark(&mut self, part: u16) {
        let uses = &mut self.uses[usize::from(part)];
        *uses = uses.saturating_add(1);
    }

    fn own(&mut self, owner: usize, one: u16, other: u16) {
        self.mark(one);
        self.mark(other);
        self.depths[owner] = above(&self.depths, one, other);
    }
}

impl Survey {
    /// One pass upwards: parts stand below their owners, so their depths are known.
    pub fn of(image: &Image) -> Survey {
        let mut survey = Survey {
            commands: Family::new(image.commands().len()),
            expressions: Family::new(image.expressions().len()),
        };
        for state in image.states() {
            survey.commands.mark(state.command);
        }
        for (number, node) in image.commands().enumerate() {
            match node.kind {
                ASSIGN => survey.expressions.mark(node.a),
                SEQUENCE => survey.commands.own(number, node.a, node.b),
                IF => {
                    survey.expressions.mark(node.a);
                    survey.commands.own(number, node.b, node.c);
                }
                _ => {}
            }
        }
        for (number, node) in image.expressions().enumerate() {
            if node.kind > READ {
                survey.expressions.own(number, node.a, node.b);
            }
        }
        survey
    }

    /// Refusal 6: node not used exactly once.
    pub fn judge_uses(&self) -> Result<(), Refusal> {
        let commands = &self.commands.uses[..self.commands.count];
        let expressions = &self.expressions.uses[..self.expressions.count];
        lowest(6, commands, expressions, |&uses| uses != 1)
    }

    /// Refusal 7: depth above 64.
    pub fn judge_depth(&self) -> Result<(), Refusal> {
        let commands = &self.commands.depths[..self.commands.count];
        let expressions = &self.expressions.depths[..self.expressions.count];
        lowest(7, commands, expressions, |&depth| depth > DEEPEST)
    }
}

/// One more than the deeper of two parts; any depth that is too large is as good as another.
fn above(depths: &[u8], one: u16, other: u16) -> u8 {
    depths[usize::from(one)]
        .max(depths[usize::from(other)])
        .saturating_add(1)
}

fn lowest(
    number: u32,
    commands: &[u8],
    expressions: &[u8],
    offends: impl Fn(&u8) -> bool,
) -> Result<(), Refusal> {
    if let Some(place) = commands.iter().position(&offends) {
        return Err(Refusal::new(number, place));
    }
    if let Some(place) = expressions.iter().position(&offends) {
        return Err(Refusal::new(number, EXPRESSION_PLACE + place));
    }
    Ok(())
}
