//! What pruning leaves of a design, and what is said of it: which states stay and go, and why.

use crate::common::{bytes, designs, explained_text, text};
use caisson_tests::generate::random::Random;
use caisson_tests::generate::{design, Size};
use caisson_tests::reference::listing;
use caisson_tools::prune::{prune_table, prune_text};
use caisson_tools::{assemble, explain, gates, library, read};

const WHOLE: &str = "nothing goes: every state is reached\n";

/// A register, a root that falls, and these states.
fn with_states(states: &str) -> String {
    format!("label low\nregister r : low = 0\nstate root : low {{ fall }}\n{states}\n")
}

fn said(source: &str) -> String {
    prune_text(source).unwrap().words.unwrap()
}

#[test]
fn the_worked_design_is_said() {
    let named = "5 of 11 states go:\n\
        \x20   state 0 (root) stays as state 0: it is the root\n\
        \x20   state 1 (lease) stays as state 1: state 0 (root) falls to it\n\
        \x20   state 2 (summer) goes: no state that stays goes to it, only state 3 (autumn)\n\
        \x20   state 3 (autumn) goes: no state that stays goes to it, only state 2 (summer)\n\
        \x20   state 4 (works) stays as state 2: state 1 (lease) falls to it\n\
        \x20   state 5 (flush) goes: its parent, state 2 (summer), goes\n\
        \x20   state 6 (pump) stays as state 3: state 4 (works) falls to it\n\
        \x20   state 7 (spare) goes: no state that stays goes to it\n\
        \x20   state 8 (rest) stays as state 4: state 6 (pump) goes to it\n\
        \x20   state 9 (boost) goes: its parent, state 8 (rest), holds no fall\n\
        \x20   state 10 (drain) stays as state 5: state 8 (rest) goes to it\n\
        states: from 11 to 6\ncommands: from 33 to 18\nexpressions: from 29 to 14\nbytes: from 654 to 369\n";
    assert_eq!(said(&text("designs/spare_states.caisson")), named);
    let pruned = prune_table(&bytes("designs/spare_states.table"));
    assert!(pruned.image == bytes("designs/spare_states_pruned.table"));
    let mut numbered = named.to_string();
    for name in [
        "root", "lease", "summer", "autumn", "works", "flush", "pump", "spare", "rest", "boost",
        "drain",
    ] {
        numbered = numbered.replace(&format!(" ({name})"), "");
    }
    assert_eq!(pruned.words.unwrap(), numbered);
}

/// The ways in which a state is reached, or is not, each with its line; and what is left, as a text.
#[test]
fn every_way_is_told() {
    for (states, line, left) in [
        // In a branch that no value takes, a goto and a fall.
        (
            "state a in root : low { if 0 then goto b else goto a }\nstate s in root : low { goto s }\n\
             state b in root : low { goto b }",
            "state 3 (b) stays as state 2: state 1 (a) goes to it",
            "state a in root : low { if 0 then goto b else goto a }\nstate b in root : low { goto b }",
        ),
        (
            "state a in root : low { if 0 then fall else goto a }\nstate s in root : low { goto a }\n\
             state c in a : low { goto c }",
            "state 3 (c) stays as state 2: state 1 (a) falls to it",
            "state a in root : low { if 0 then fall else goto a }\nstate c in a : low { goto c }",
        ),
        // To itself alone, and from several that are not reached.
        (
            "state a in root : low { goto a }\nstate s in root : low { goto s }",
            "state 2 (s) goes: no state that stays goes to it",
            "state a in root : low { goto a }",
        ),
        (
            "state a in root : low { goto a }\nstate s in root : low { goto u }\n\
             state t in root : low { if r then goto u else goto s }\nstate u in root : low { goto u }",
            "state 4 (u) goes: no state that stays goes to it, only states 2 (s) and 3 (t)",
            "state a in root : low { goto a }",
        ),
        // The default child alone is fallen to; another is reached by a goto, over several states.
        (
            "state a in root : low { fall }\nstate b in a : low { goto d }\nstate c in a : low { goto b }\n\
             state d in a : low { r := r + 1; goto e }\nstate e in a : low { goto b }",
            "state 5 (e) stays as state 4: state 4 (d) goes to it",
            "state a in root : low { fall }\nstate b in a : low { goto d }\n\
             state d in a : low { r := r + 1; goto e }\nstate e in a : low { goto b }",
        ),
        // A state without a fall, whose children go to each other.
        (
            "state a in root : low { goto a }\nstate b in a : low { goto c }\nstate c in a : low { goto b }",
            "state 2 (b) goes: its parent, state 1 (a), holds no fall",
            "state a in root : low { goto a }",
        ),
        // Below a state that goes, whatever it holds.
        (
            "state a in root : low { goto a }\nstate s in root : low { fall }\nstate c in s : low { fall }\n\
             state d in c : low { goto d }",
            "state 4 (d) goes: its parent, state 3 (c), goes",
            "state a in root : low { goto a }",
        ),
        // The arguments of a goto are registers, whatever states go.
        (
            "state a in root : low { goto c(r) }\nstate s in root : low { r := 7; goto s }\n\
             state c(p : low..low) in root : low { p := p + 1; goto c(p) }",
            "state 3 (c) stays as state 2: state 1 (a) goes to it",
            "state a in root : low { goto c(r) }\nstate c(p : low..low) in root : low { p := p + 1; goto c(p) }",
        ),
    ] {
        let pruned = prune_text(&with_states(states)).unwrap();
        let words = pruned.words.unwrap();
        assert!(words.contains(&format!("    {line}\n")), "{line}\n{words}");
        assert!(pruned.image == assemble(&with_states(left)).unwrap(), "{states}");
        assert_eq!(said(&with_states(left)), WHOLE);
    }
}

/// Of every accepted design: the result is accepted, and it comes back byte for byte; so does a design all of
/// whose states are reached.
#[test]
fn twice_is_once_and_the_whole_comes_back() {
    let mut smaller = Vec::new();
    for name in designs("table") {
        let image = bytes(&format!("designs/{name}.table"));
        if gates::is_table(&image) || library::check(&image).number != 0 {
            continue;
        }
        let pruned = prune_table(&image);
        assert_eq!(
            (pruned.answer.number, pruned.answer.place),
            (0, 0),
            "{name}"
        );
        assert_eq!(pruned.answer.count, pruned.image.len(), "{name}");
        assert_eq!(library::check(&pruned.image).number, 0, "{name}");
        let again = prune_table(&pruned.image);
        assert!(again.image == pruned.image, "{name}");
        assert_eq!(again.words.unwrap(), WHOLE, "{name}");
        let whole = pruned.words.unwrap() == WHOLE;
        assert_eq!(whole, pruned.image == image, "{name}");
        if !whole {
            smaller.push(name);
        }
    }
    assert_eq!(smaller, ["no_fall", "spare_children", "spare_states"]);
}

/// The new numbers of the states, as the words have them.
fn new_numbers(words: &str, states: usize) -> Vec<Option<String>> {
    let numbers = (0..states).map(|state| {
        let begin = format!("    state {state} stays as state ");
        let line = words.lines().find_map(|line| line.strip_prefix(&begin))?;
        Some(line.split_once(':').unwrap().0.to_string())
    });
    numbers.collect()
}

/// By the independent implementation: in every cycle the same registers, and the same walk under the new numbers.
fn runs_alike(image: &[u8], pruned: &[u8], words: &str) {
    let states = read(image).unwrap().counts()[2];
    let numbers = new_numbers(words, states);
    let [old, new] = [image, pruned].map(|image| {
        let lines = listing(&[&[40, 0], image].concat());
        String::from_utf8(lines).unwrap()
    });
    assert_eq!(old.lines().count(), 41);
    let renumbered = old.lines().skip(1).map(|line| {
        let [cycle, walk, registers] = line.split(';').collect::<Vec<_>>()[..] else {
            panic!("{line}");
        };
        let walk = walk.split(' ').map(|state| {
            let number = &numbers[state.parse::<usize>().unwrap()];
            number.as_deref().expect("a state that runs stays")
        });
        format!("{cycle};{};{registers}", walk.collect::<Vec<_>>().join(" "))
    });
    assert!(renumbered.eq(new.lines().skip(1)), "{old}{new}{words}");
}

#[test]
fn the_worked_design_runs_alike() {
    let image = bytes("designs/spare_states.table");
    let pruned = prune_table(&image);
    runs_alike(&image, &pruned.image, &pruned.words.unwrap());
}

#[test]
fn random_designs() {
    let mut random = Random::new(11);
    let mut smaller = 0;
    for _ in 0..300 {
        let size = Size::random(&mut random);
        let image = design(&mut random, size).image();
        let pruned = prune_table(&image);
        assert_eq!(pruned.answer.number, 0);
        let words = pruned.words.unwrap();
        let again = prune_table(&pruned.image);
        assert!(again.image == pruned.image);
        assert_eq!(again.words.unwrap(), WHOLE);
        match words == WHOLE {
            true => assert!(pruned.image == image),
            false => runs_alike(&image, &pruned.image, &words),
        }
        smaller += usize::from(words != WHOLE);
    }
    assert!((50..300).contains(&smaller), "{smaller}");
}

/// In the words of `explain`, of a text with its line.
#[test]
fn a_refused_design_is_explained() {
    for (design, number) in [
        ("leak", 10),
        ("low_child", 9),
        ("port_assigned", 16),
        ("no_lattice", 2),
    ] {
        let image = bytes(&format!("designs/{design}.table"));
        let pruned = prune_table(&image);
        assert_eq!(pruned.answer.number, number);
        assert!(pruned.image.is_empty());
        let explained = explain::explain(&image, pruned.answer);
        assert_eq!(pruned.words.unwrap(), explained);
        let source = text(&format!("designs/{design}.caisson"));
        let pruned = prune_text(&source).unwrap();
        let words = pruned.words.unwrap();
        assert_eq!(words, explained_text(&source));
        assert!(pruned.image.is_empty());
    }
    // The tool lends an area that is never too short, so that it has 24 from no call of its own.
    let image = bytes("designs/spare_states.table");
    let mut short = vec![0; 368];
    let answer = library::prune(&image, &mut short);
    assert_eq!((answer.number, answer.place, answer.count), (24, 0, 0));
    assert!(short == vec![0; 368]);
    let words = explain::explain(&image, answer);
    assert!(words.starts_with(
        "refused by 24 at place 0\n\nAn output area is shorter than what is written to it. "
    ));
    assert!(
        words.ends_with("\n\nThe image is not at fault: a longer area takes what is written.\n")
    );
}
