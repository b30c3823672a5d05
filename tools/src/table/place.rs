//! A record of a table by its number, as the place of a refusal names it.

use super::limits::EXPRESSION_PLACE;

#[derive(Clone, Copy, Debug, PartialEq, Eq)]
pub enum Place {
    Label(usize),
    Register(usize),
    State(usize),
    Command(usize),
    Expression(usize),
}

impl Place {
    pub fn node(place: usize) -> Place {
        match place.checked_sub(EXPRESSION_PLACE) {
            Some(number) => Place::Expression(number),
            None => Place::Command(place),
        }
    }
}
