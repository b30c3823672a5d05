//! Refusal 5 at an expression of the kinds that request E3 speaks of. Each reason has to be met.

use super::tally::Tally;
use crate::answer::Answer;
use crate::reference::image::Image;
use crate::reference::limits::EXPRESSION_PLACE;

pub fn note_kind(tally: &mut Tally, bytes: &[u8], answer: Answer) {
    let image = Image::open(bytes).ok().filter(|_| answer.number == 5);
    let number = answer.place.checked_sub(EXPRESSION_PLACE);
    let (Some(image), Some(number)) = (image, number) else {
        return;
    };
    let Some(node) = image.expressions().nth(number) else {
        return;
    };
    let signed = (9..=11).contains(&node.kind);
    let unused = node.which != 0 || node.c != 0;
    tally.note("5 by expression kind 12", node.kind == 12);
    tally.note("5 by an expression kind above 12", node.kind > 12);
    tally.note("5 in kinds 9 to 11, a byte not used", signed && unused);
    tally.note("5 in kinds 9 to 11, a part not lower", signed && !unused);
}
