//! The examples, checked.

use super::Script;
use crate::examples;

pub fn add(script: &mut Script) {
    for example in examples::all() {
        script.note(&example.sentence).image(&example.image);
    }
}
