//! Request E6 by its words alone: every labeling of the inner registers is tried. It serves small designs.

use super::calls::{check, judge_before_flow};
use super::image::INNER;
use super::labels::{only, Labels};
use super::raise::with_labels;

/// What the accepted raisings of an image come to.
#[derive(Debug, PartialEq, Eq)]
pub enum Raisings {
    None,
    /// The one that is at or below every other, and how many there are.
    Least(Vec<u8>, usize),
    /// Some of them, but none that is at or below every other.
    NoLeast,
}

/// Tries all raisings. None where the image does not pass the checks up to 9, or has more raisings than
/// are to be tried.
pub fn try_all(bytes: &[u8], most: usize) -> Option<Raisings> {
    let (image, labels) = judge_before_flow(bytes).ok()?;
    let count = image.rows().len() as u8;
    let choices: Vec<Vec<u8>> = image
        .registers()
        .map(|register| {
            let inner = register.kind == INNER;
            let allowed = |&label: &u8| match inner {
                true => labels.flow(only(register.label), label),
                false => label == register.label,
            };
            (0..count).filter(allowed).collect()
        })
        .collect();
    let raisings = choices
        .iter()
        .try_fold(1usize, |product, labels| product.checked_mul(labels.len()))?;
    if raisings > most {
        return None;
    }
    let labelings = (0..raisings).map(|number| labeling(&choices, number));
    let accepted: Vec<Vec<u8>> = labelings
        .filter(|labeling| check(&with_labels(bytes, labeling)).number == 0)
        .collect();
    Some(least(&accepted, &labels).map_or_else(
        || match accepted.is_empty() {
            true => Raisings::None,
            false => Raisings::NoLeast,
        },
        |least| Raisings::Least(with_labels(bytes, least), accepted.len()),
    ))
}

/// The labeling of this number: its digits choose, the first register's the least significant.
fn labeling(choices: &[Vec<u8>], mut number: usize) -> Vec<u8> {
    let mut digit = |labels: &Vec<u8>| {
        let label = labels[number % labels.len()];
        number /= labels.len();
        label
    };
    choices.iter().map(&mut digit).collect()
}

/// The one that is at or below all others at each register.
fn least<'a>(labelings: &'a [Vec<u8>], labels: &Labels) -> Option<&'a Vec<u8>> {
    let below = |one: &Vec<u8>, other: &Vec<u8>| {
        let mut pairs = one.iter().zip(other);
        pairs.all(|(&lower, &upper)| labels.flow(only(lower), upper))
    };
    let lowest = labelings
        .iter()
        .reduce(|lowest, other| if below(other, lowest) { other } else { lowest })?;
    let all = labelings.iter().all(|other| below(lowest, other));
    all.then_some(lowest)
}
