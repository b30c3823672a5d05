//! The filing form of a design, the order over designs, and in what two differ first.

use crate::common::{bytes, designs, explained_text, text};
use crate::from_the_end::from_the_end;
use crate::numberings::{leaves_first, renumbered};
use caisson_tests::generate::random::Random;
use caisson_tests::generate::{design, Size};
use caisson_tools::filing::{difference, file_table, file_text, sorted};
use caisson_tools::{assemble, explain, gates, library, read};

const FILED: &str = "nothing changes: the nodes have the numbers of the filing form\n";

/// A design with an if in a sequence in an if, and this register record.
fn nested(register: &str) -> String {
    format!(
        "label low -> high\nlabel high\n{register}\nport p : low = 0\nstate root : low {{ fall }}\n\
         state s in root : low {{\n    \
             if p == 1 then {{ if p < 2 then r := r + 3 else r := 4; goto t }} else {{ r := 5; goto s }}\n}}\n\
         state t in root : low {{ r := r - (p + 6); goto s }}\n\
         state u in root : high {{ goto u }}\n"
    )
}

/// Node by node: the conditions stand behind the expressions of their branches, the inner one before the outer.
#[test]
fn the_form_is_as_the_request_says() {
    let filed = file_text(&nested("register r : low = 0")).unwrap();
    assert_eq!(
        filed.words.unwrap(),
        "new numbers: 0 of 14 commands, 11 of 16 expressions\n"
    );
    let form = read(&filed.image).unwrap();
    let commands = form
        .commands
        .iter()
        .map(|node| [node.kind.into(), node.a, node.b, node.c]);
    let expected = [
        [3, 0, 0, 0],   // 0: fall
        [1, 2, 0, 0],   // 1: r := expression 2
        [1, 3, 0, 0],   // 2: r := expression 3
        [5, 6, 1, 2],   // 3: if expression 6 then 1 else 2
        [4, 0, 0, 0],   // 4: goto t
        [2, 3, 4, 0],   // 5: 3; 4
        [1, 7, 0, 0],   // 6: r := expression 7
        [4, 0, 0, 0],   // 7: goto s
        [2, 6, 7, 0],   // 8: 6; 7
        [5, 10, 5, 8],  // 9: if expression 10 then 5 else 8
        [1, 15, 0, 0],  // 10: r := expression 15
        [4, 0, 0, 0],   // 11: goto s
        [2, 10, 11, 0], // 12: 10; 11
        [4, 0, 0, 0],   // 13: goto u
    ];
    assert_eq!(commands.collect::<Vec<_>>(), expected);
    let bodies = form.states.iter().map(|state| state.command);
    assert_eq!(bodies.collect::<Vec<_>>(), [0, 9, 12, 13]);
    let expressions = form
        .expressions
        .iter()
        .map(|node| [node.kind.into(), node.a, node.b]);
    let expected = [
        [1, 0, 0],   // 0: r
        [0, 0, 3],   // 1: 3
        [2, 0, 1],   // 2: 0 + 1
        [0, 0, 4],   // 3: 4
        [1, 0, 0],   // 4: p
        [0, 0, 2],   // 5: 2
        [8, 4, 5],   // 6: 4 < 5
        [0, 0, 5],   // 7: 5
        [1, 0, 0],   // 8: p
        [0, 0, 1],   // 9: 1
        [7, 8, 9],   // 10: 8 == 9
        [1, 0, 0],   // 11: r
        [1, 0, 0],   // 12: p
        [0, 0, 6],   // 13: 6
        [2, 12, 13], // 14: 12 + 13
        [3, 11, 14], // 15: 11 - 14
    ];
    assert_eq!(expressions.collect::<Vec<_>>(), expected);
}

/// Of every accepted design: the form is accepted, is the form of itself and of the design under other numberings,
/// and says the same text.
#[test]
fn one_form_for_every_numbering() {
    let mut random = Random::new(12);
    let mut filed_already = Vec::new();
    for name in designs("table") {
        let image = bytes(&format!("designs/{name}.table"));
        if gates::is_table(&image) || library::check(&image).number != 0 {
            continue;
        }
        let filed = file_table(&image);
        let answer = filed.answer;
        assert_eq!(
            (answer.number, answer.place, answer.count),
            (0, 0, image.len())
        );
        let words = filed.words.unwrap();
        assert_eq!(words == FILED, filed.image == image, "{name}");
        let again = file_table(&filed.image);
        assert!(again.image == filed.image, "{name}");
        assert_eq!(again.words.unwrap(), FILED, "{name}");
        for other in [
            from_the_end(&image).0,
            leaves_first(&image),
            renumbered(&image, &mut |count| count - 1),
            renumbered(&image, &mut |count| random.below(count)),
        ] {
            assert!(file_table(&other).image == filed.image, "{name}");
            assert_eq!(difference(&image, &other), Ok(None), "{name}");
        }
        let printed = [&image, &filed.image].map(|image| print(image));
        assert!(printed[0] == printed[1], "{name}");
        if words == FILED {
            filed_already.push(name);
        }
    }
    assert_eq!(
        filed_already,
        [
            "deepest",
            "lease",
            "slot",
            "spare_children",
            "spare_states",
            "spare_states_pruned",
            "tank"
        ]
    );
}

fn print(image: &[u8]) -> String {
    caisson_tools::print(&read(image).unwrap())
}

/// Random designs under random numberings; and the order, which does not depend on them.
#[test]
fn random_designs() {
    let mut random = Random::new(12);
    let mut last: Option<[Vec<u8>; 2]> = None;
    for _ in 0..200 {
        let size = Size::random(&mut random);
        let image = design(&mut random, size).image();
        let other = renumbered(&image, &mut |count| random.below(count));
        let form = file_table(&image).image;
        let filed = file_table(&other);
        assert!(filed.words.is_ok());
        assert!(filed.image == form);
        assert_eq!(difference(&image, &other), Ok(None));
        // Of equal ones the first is handed back, as it was lent.
        assert!(std::ptr::eq(library::earlier(&image, &other), &image[..]));
        assert!(std::ptr::eq(library::earlier(&other, &image), &other[..]));
        if let Some([before, before_form]) = last {
            let expected = match before_form <= form {
                true => &before,
                false => &other,
            };
            assert!(std::ptr::eq(
                library::earlier(&before, &other),
                &expected[..]
            ));
        }
        last = Some([other, form]);
    }
}

/// An empty part of the first, whichever is refused.
#[test]
fn nothing_is_earlier_than_a_refused_design() {
    let [lease, leak] = ["lease", "leak"].map(|name| bytes(&format!("designs/{name}.table")));
    for (first, second) in [(&lease, &leak), (&leak, &lease), (&leak, &leak)] {
        let part = library::earlier(first, second);
        assert!(part.is_empty() && part.as_ptr() == first.as_ptr());
    }
}

/// The order is that of the forms' bytes, whatever order the images are given in; equal ones stay as given.
#[test]
fn sorting() {
    let sources = ["= 0", "= 1", "= 2"].map(|reset| nested(&format!("register r : low {reset}")));
    let images = sources.map(|source| assemble(&source).unwrap());
    let [low, middle, high] = images.clone();
    let ends = images.map(|image| from_the_end(&image).0);
    let [low_end, middle_end, high_end] = ends;
    assert_eq!(sorted(&[]), []);
    assert_eq!(sorted(std::slice::from_ref(&low)), [(1, 0)]);
    let shelf = [high_end, low, middle, high, low_end, middle_end];
    let expected = [(1, 1), (1, 4), (2, 2), (2, 5), (3, 0), (3, 3)];
    assert_eq!(sorted(&shelf), expected);
    let mut turned = shelf.to_vec();
    turned.reverse();
    let expected = [(1, 1), (1, 4), (2, 0), (2, 3), (3, 2), (3, 5)];
    assert_eq!(sorted(&turned), expected);
}

/// Counts, then labels, registers, state records, and bodies last.
#[test]
fn the_first_difference() {
    let plain = nested("register r : low = 0");
    let image = assemble(&plain).unwrap();
    for (from, to, words) in [
        (
            "-> high\nlabel high\n",
            "-> high, top\nlabel high -> top\nlabel top\n",
            "labels: from 2 to 3",
        ),
        (
            "port p",
            "port q : low = 0\nport p",
            "registers: from 2 to 3",
        ),
        (
            "state u",
            "state v in root : low { goto v }\nstate u",
            "states: from 4 to 5",
        ),
        (
            "r : low",
            "r : low width 9",
            "register 0, width: from 32 to 9",
        ),
        (
            "= 0\nport",
            "= 7\nport",
            "register 0, reset value: from 0 to 7",
        ),
        (
            "port p",
            "register p",
            "register 1, kind: from port to inner",
        ),
        ("u in root", "u in s", "state 3, parent: from 0 to 1"),
        (
            "u in root : high",
            "u in root : low",
            "state 3, label: from 1 to 0",
        ),
        ("r + 3", "r - 3", "the body of state 1"),
        ("r := 4", "r := 40", "the body of state 1"),
        ("p + 6", "6 + p", "the body of state 2"),
        ("r - (p + 6)", "r - p + 6", "the body of state 2"),
        ("goto t }", "goto s }", "the body of state 1"),
        ("p == 1", "r == 1", "the body of state 1"),
    ] {
        assert!(plain.contains(from), "{from}");
        let changed = assemble(&plain.replacen(from, to, 1)).unwrap();
        for other in [changed.clone(), leaves_first(&changed)] {
            assert_eq!(library::check(&other).number, 0, "{words}");
            assert_eq!(difference(&image, &other), Ok(Some(words.to_string())));
        }
    }
    let chain = |labels: &str| {
        assemble(&format!(
            "{labels}state root : a {{ fall }}\nstate s in root : a {{ goto s }}\n"
        ))
    };
    let [one, other] = [
        "label a -> b, c\nlabel b -> c\nlabel c\n",
        "label a -> b, c\nlabel b\nlabel c -> b\n",
    ]
    .map(|labels| chain(labels).unwrap());
    let row = "label 1, row: from 6 (flows to 1, 2) to 2 (flows to 1)";
    assert_eq!(difference(&one, &other), Ok(Some(row.to_string())));
}

/// In the words of `explain`, of a text with its line.
#[test]
fn a_refused_design_is_explained() {
    for (design, number) in [("leak", 10), ("low_child", 9), ("no_lattice", 2)] {
        let image = bytes(&format!("designs/{design}.table"));
        let filed = file_table(&image);
        assert_eq!(filed.answer.number, number);
        assert!(filed.image.is_empty());
        let explained = explain::explain(&image, filed.answer);
        assert_eq!(filed.words.unwrap(), explained);
        let source = text(&format!("designs/{design}.caisson"));
        let filed = file_text(&source).unwrap();
        let words = filed.words.unwrap();
        assert_eq!(words, explained_text(&source));
        assert!(filed.image.is_empty());
    }
    // The tool lends an area as long as the image, so that it has 24 from no call of its own.
    let image = bytes("designs/dosing.table");
    let mut short = vec![7; image.len() - 1];
    let answer = library::file(&image, &mut short);
    assert_eq!((answer.number, answer.place, answer.count), (24, 0, 0));
    assert!(short == vec![7; image.len() - 1]);
}
