//! Several faults of one text: all at once, in the order of the text, and none that another makes up.

use crate::common::{on_large_stack, with_body};
use caisson_tools::assemble;

/// Line, column and message of each fault of a text.
fn faults(source: &str) -> Vec<(usize, usize, String)> {
    let faults = assemble(source).unwrap_err();
    let faults = faults.list().iter();
    faults
        .map(|fault| (fault.at.line, fault.at.column, fault.message()))
        .collect()
}

/// The places alone, with the pieces that were found there.
fn places(source: &str) -> Vec<String> {
    let faults = assemble(source).unwrap_err();
    let faults = faults.list().iter();
    faults
        .map(|fault| format!("{}:{} {}", fault.at.line, fault.at.column, fault.found))
        .collect()
}

/// Each body has as many faults as it has places here, and so has the rest of the text behind it.
#[test]
fn bodies_go_on_behind_a_fault() {
    for (body, found) in [
        ("a := ; b := ; goto s", &["6:30 `;`", "6:37 `;`"][..]),
        ("a := b c; b := ); goto s", &["6:32 `c`", "6:40 `)`"]),
        (
            "if a then got s else fell; goto s",
            &["6:35 `got`", "6:46 `fell`"],
        ),
        (
            "if a than { b := } else { c := }; goto s",
            &["6:30 `than`", "6:42 `}`", "6:56 `}`"],
        ),
        ("if a then b := 1; goto s", &["6:41 `;`"]),
        (
            "if a then b := 1; c := 2 else goto s; fall;",
            &["6:41 `;`", "6:69 `}`"],
        ),
        (
            "if a then { if b then a := 1 } else skip; goto s",
            &["6:54 `}`"],
        ),
        (
            "if a then { b := 1 else { b := 2 }; goto s",
            &["6:44 `else`"],
        ),
        (
            "if (a b) then goto s else goto s; c := +",
            &["6:31 `b`", "6:64 `+`"],
        ),
        (
            "{ { a := 1 b := 2 }; c := }; goto s",
            &["6:36 `b`", "6:51 `}`"],
        ),
        ("a := 1; ; ; goto s", &["6:33 `;`", "6:35 `;`"]),
        (
            "if a b + 1 then skip else skip; a := +; goto s",
            &["6:30 `b`", "6:62 `+`"],
        ),
        (
            "if a then b := 1; c := 2 } else skip; a := +; goto s",
            &["6:41 `;`", "6:68 `+`"],
        ),
        ("{ }; goto s", &["6:27 `}`"]),
        ("goto s(a,); a := (1; goto s", &["6:34 `)`", "6:44 `;`"]),
        (
            "fall else fall; a := ; goto s",
            &["6:30 `else`", "6:46 `;`"],
        ),
        (
            "a := ?; b := @ a; c := $ + 1; goto s",
            &["6:30 `?`", "6:38 `@`", "6:48 `$`"],
        ),
        ("skip skip skip", &["6:30 `skip`", "6:35 `skip`"]),
        ("1 := 2; a := 3 4; goto s", &["6:25 `1`", "6:40 `4`"]),
    ] {
        let mut expected: Vec<String> = found.iter().map(|one| one.to_string()).collect();
        expected.push("7:7 `0`".to_string());
        let source = with_body(body) + "label 0\n";
        assert_eq!(places(&source), expected, "{body}");
    }
}

/// A body that is not closed ends where the next declaration begins; one brace too many ends it too early.
#[test]
fn declarations_go_on_behind_a_fault() {
    for (declared, found) in [
        (
            "state t in root : low { a := 1; goto t\nlabel 0",
            &["7:1 `label`", "7:7 `0`"][..],
        ),
        (
            "state t in root : low { if a then { b := 1\nlabel 0",
            &["7:1 `label`", "7:7 `0`"],
        ),
        (
            "state t in root : low { if a then { b := 1 } } else skip; goto t }\nlabel 0",
            &["6:46 `}`", "7:7 `0`"],
        ),
        (
            "state t root : low { goto t; a := }\nlabel 0",
            &["6:9 `root`", "6:35 `}`", "7:7 `0`"],
        ),
        (
            "state t in root low { a := x; goto t }\nstate u in t : low { goto u }",
            &["6:17 `low`", "6:28 `x`"],
        ),
        ("lable x\nregister y : x = 0", &["6:1 `lable`"]),
        (
            "stat t in root : low { x := 1; goto t }",
            &["6:1 `stat`", "6:24 `x`"],
        ),
        (
            "constant x = 3\nregister y : x = 0\nstate x in root : low { goto x }",
            &["6:1 `constant`"],
        ),
        (
            "register x low = 0\nregister y : = 0\nstate t in root : low { x := y + z; goto t }",
            &["6:12 `low`", "7:14 `=`", "8:34 `z`"],
        ),
        (
            "register x : low width 33 = 0\nport y : low width 4",
            &["6:24 `33`", "7:21 the end of the text"],
        ),
        (
            "label\nlabel x -> , y\nlabel z",
            &["7:1 `label`", "7:12 `,`"],
        ),
        (
            "register : low = 0\nstate t in root : low { x := y; goto u; a := }",
            &["6:10 `:`", "7:38 `u`", "7:46 `}`"],
        ),
        (
            "label -> low\nregister x : y = 0\nregister z : low = ",
            &["6:7 `->`", "8:20 the end of the text"],
        ),
        (
            "state in root : low { goto x; y := 1 }\nstate t in x : low { goto x }",
            &["6:7 `in`", "6:31 `y`"],
        ),
        ("} register x : low = 0", &["6:1 `}`"]),
    ] {
        let source = format!(
            "label low\nregister a : low = 0\nregister b : low = 0\nstate root : low {{ fall }}\n\
             state s in root : low {{ goto s }}\n{declared}"
        );
        assert_eq!(places(&source), found, "{declared}");
    }
}

#[test]
fn names_are_looked_up_all_the_same() {
    let source =
        "label low\nlabel low\nregister a : hihg = 0\nregister a : low = 0\nport b : a = ?\n\
                  state root : low { fall }\nstate s in toor : low { c := d; goto t; }\n\
                  state s in root : low { a := e + f; goto root(a, g) }\n";
    let expected = [
        (2, 7, "expected a name that no label above has, found `low`"),
        (3, 14, "expected the name of a label, found `hihg`"),
        (4, 10, "expected a name that no register above has, found `a`"),
        (5, 10, "expected the name of a label, found `a`"),
        (5, 14, "expected a name, a number or a symbol, found `?`"),
        (7, 12, "expected the name of a state, found `toor`"),
        (7, 25, "expected the name of a register, found `c`"),
        (7, 30, "expected the name of a register, found `d`"),
        (7, 38, "expected the name of a state, found `t`"),
        (
            7,
            41,
            "expected a command: `skip`, `fall`, `goto`, `if`, `{` or the name of a register, found `}`",
        ),
        (8, 7, "expected a name that no state above has, found `s`"),
        (8, 30, "expected the name of a register, found `e`"),
        (8, 34, "expected the name of a register, found `f`"),
        (8, 42, "expected 0 arguments behind `root`, found 2"),
        (8, 50, "expected the name of a register, found `g`"),
    ];
    let found = faults(source);
    let found = found
        .iter()
        .map(|(line, column, words)| (*line, *column, words.as_str()));
    assert_eq!(found.collect::<Vec<_>>(), expected);
}

#[test]
fn gate_tables_go_on_behind_a_fault() {
    for (source, found) in [
        (
            "gates\ninput a trusted\ninput b\nflipflop q = r start 2 trusted\ngate g = nand a\ngate h = nand g x\n\
             input a untrusted",
            &["4:1 `flipflop`", "4:22 `2`", "6:1 `gate`", "6:17 `x`", "7:7 `a`"][..],
        ),
        ("gates\ninput trusted\ngate g = nand a g\ngate h = nor g g", &["2:7 `trusted`", "4:10 `nor`"]),
        ("gates\nflipfolp q = q strat 0 trsted\ngaet g = and q q", &[
            "2:1 `flipfolp`", "2:16 `strat`", "2:24 `trsted`", "3:1 `gaet`", "3:10 `and`",
        ]),
    ] {
        assert_eq!(places(source), found, "{source}");
    }
}

/// One line for each that is shown, and a count of the others.
#[test]
fn twenty_are_shown() {
    for (count, more) in [
        (20, None),
        (21, Some("and 1 more")),
        (500, Some("and 480 more")),
    ] {
        let source = with_body(&("a := x; ".repeat(count) + "goto s"));
        let source = source.replace("; ", ";\n");
        let faults = assemble(&source).unwrap_err();
        assert_eq!(faults.list().len(), count);
        let report = faults.report("x.caisson", &source);
        let shown = report
            .lines()
            .filter(|line| line.starts_with("x.caisson:"))
            .count();
        assert_eq!(shown, 20);
        let last = report.lines().last().unwrap();
        assert_eq!(more.unwrap_or("         ^"), last);
    }
}

/// A count out of its limits is told once. Of commands, expressions and nesting nothing is read behind it.
#[test]
fn limits_are_told_once() {
    let states: String = (0..80)
        .map(|n| format!("state t{n} in root : low {{ goto t{n} }}\n"))
        .collect();
    let labels: String = (0..300).map(|n| format!("label l{n}\n")).collect();
    let registers: String = (0..300)
        .map(|n| format!("register r{n} : low = 0\n"))
        .collect();
    let found = places(&(with_body("x := 1; goto s") + &states + &labels + &registers));
    assert_eq!(
        found,
        [
            "6:25 `x`",
            "69:1 one more",
            "102:1 one more",
            "448:1 one more"
        ]
    );
    on_large_stack(|| {
        for body in [
            "skip; ".repeat(600),
            "a := 1; ".repeat(2_000),
            "{ ".repeat(3_000),
        ] {
            let found = faults(&(with_body(&body) + "label 0"));
            assert_eq!(found.len(), 1, "{found:?}");
            assert!(
                found[0].2.starts_with("expected at most 1024 "),
                "{found:?}"
            );
        }
    });
}

/// Any piece of any text is read to its end, without a panic: prefixes, and texts with a part left out or doubled.
#[test]
fn spoilt_texts_give_faults() {
    on_large_stack(|| {
        for name in crate::common::designs("caisson") {
            let source = crate::common::text(&format!("designs/{name}.caisson"));
            if name == "deepest" || name == "too_deep" {
                continue;
            }
            let pieces: Vec<&str> = source.split_inclusive([' ', '\n', ';']).collect();
            for place in 0..pieces.len() {
                let without = [&pieces[..place], &pieces[place + 1..]].concat().concat();
                let twice = [&pieces[..place + 1], &pieces[place..]].concat().concat();
                for spoilt in [pieces[..place].concat(), without, twice] {
                    if let Err(faults) = assemble(&spoilt) {
                        assert!(!faults.list().is_empty());
                        assert!(faults.report("x", &spoilt).starts_with("x:"));
                    }
                }
            }
        }
    });
}
