//! `caisson check`: accepted, refused where it stands, or wrong.

use crate::common::{designs, folder, said, text};
use caisson_tools::check::check;
use std::fs;

#[test]
fn accepted_designs_have_one_line() {
    for (design, counts) in [
        (
            "lease",
            "2 labels, 2 registers, 5 states, 13 commands, 6 expressions",
        ),
        ("counter", "1 input, 1 flip-flop, 4 gates"),
    ] {
        let file = format!("{design}.caisson");
        let expected = format!("{file}: accepted, {counts}\n");
        assert_eq!(said(&["check", &file]), (Some(0), expected, String::new()));
    }
}

/// In the text's names: labels, registers, states, parameters in scope and of the state that is given one, wires, and
/// the lines of commands.
#[test]
fn refusals_stand_where_they_are() {
    for (design, place, number, line, because) in [
        (
            "leak", "12:42", 10,
            "    state spy in root : low { if secret then leak := 1 else leak := 0; goto spy }\n",
            "    secret : high does not flow to leak : low\n",
        ),
        (
            "low_child", "9:7", 9,
            "    state open in secret : low { goto open }\n",
            "    secret : high holds a fall: line 8\n    open : low is its default child, the lowest-numbered\n    \
             secret : high does not flow to open : low\n",
        ),
        (
            "outside_bounds", "12:72", 19,
            "    state idle in root : site { if visits < 3 then goto count(visits) else goto count(secret) }\n",
            "    secret : north does not lie within what : site..site of count\n",
        ),
        (
            "one_choice", "25:33", 10,
            "    state group_a in group : data { mode := data; if data == 0 then goto group_b else goto group_a }\n",
            "    group_a : data does not flow to mode : low where data is high\n    \
             data : low..high does not flow to mode : low where data is high\n",
        ),
        (
            "no_lattice", "5:7", 2,
            "    label left\n",
            "    left and right have no least common label above them\n",
        ),
        (
            "latch", "11:6", 26,
            "    gate kept = nand set other\n",
            "    its second wire 4, other, is not lower than its own, 3\n",
        ),
    ] {
        let file = format!("{design}.caisson");
        let (status, out, err) = said(&["check", &file]);
        assert_eq!((status, err.as_str()), (Some(1), ""), "{design}");
        let start = format!("{file}:{place}: refused by {number}: ");
        assert!(out.starts_with(&start), "{out}");
        let column: usize = place.split_once(':').unwrap().1.parse().unwrap();
        let marker = " ".repeat(3 + column) + "^";
        let end = format!(".\n{line}{marker}\nBecause:\n{because}");
        assert!(out.ends_with(&end), "{out}\n{end}");
    }
}

/// Of 4 and 7 `explain` shows the record alone, and the tool says here what is wrong with it.
#[test]
fn records_and_depths_have_reasons() {
    let nested = "if 1 then { ".repeat(64) + "skip" + &" } else skip".repeat(64);
    let nested =
        format!("state root : low {{ {nested}; fall }}\nstate s in root : low {{ goto s }}");
    for (states, place, because) in [
        (
            "state root : high { fall }\nstate s in root : low { goto s }",
            "3:7: refused by 4",
            "root is the root, which has the first label: low and not high",
        ),
        (
            "state root in s : low { fall }\nstate s in root : low { goto s }",
            "3:7: refused by 4",
            "root is the root, the first state, and has no parent: s is none",
        ),
        (
            "state root : low { fall }\nstate s in t : low { goto s }\nstate t in root : low { goto t }",
            "4:7: refused by 4",
            "t, the parent of s, stands below it: a parent comes before its children",
        ),
        (
            "state root : low { fall }\nstate s in s : low { goto s }",
            "4:7: refused by 4",
            "s is its own parent",
        ),
        (&nested, "3:20: refused by 7", "it is nested 65 deep"),
    ] {
        let words = check("x", &format!("label low -> high\nlabel high\n{states}\n")).unwrap().words;
        assert!(words.starts_with(&format!("x:{place}: ")), "{words}");
        assert!(words.ends_with(&format!("^\nBecause:\n    {because}\n")), "{words}");
    }
}

/// A fall or goto that is not the last command is pointed at itself, also in a list that is nested anew.
#[test]
fn transfers_in_the_middle_are_pointed_at() {
    for (count, early) in [
        (3, 0),
        (10, 5),
        (100, 0),
        (100, 63),
        (100, 64),
        (300, 70),
        (300, 298),
    ] {
        let mut commands = vec!["skip"; count];
        commands[early] = "goto s";
        let list = commands.join(";\n") + ";\ngoto s";
        let source = format!(
            "label low\nstate root : low {{ fall }}\nstate s in root : low {{\n{list}\n}}\n"
        );
        let words = check("x", &source).unwrap().words;
        let place = format!("x:{}:1: refused by 8: ", 4 + early);
        assert!(words.starts_with(&place), "{words}");
        let because = "\n    goto s;\n    ^\nBecause:\n    the first part transfers, so the second would never run\n";
        assert!(words.ends_with(because), "{words}");
    }
}

/// Each design of the folder has the verdict that its first line names, and is refused at a place of the text.
#[test]
fn all_designs_are_judged_alike() {
    for name in designs("caisson") {
        let source = text(&format!("designs/{name}.caisson"));
        let words = check("x", &source).unwrap().words;
        let verdict = source.lines().next().unwrap();
        match verdict.strip_prefix("# Refused by ") {
            Some(rest) => {
                let number = rest.split(' ').next().unwrap();
                assert!(
                    words.contains(&format!(": refused by {number}: ")),
                    "{words}"
                );
                assert!(words.starts_with("x:"), "{words}");
                assert!(!words.starts_with("x: "), "{words}");
            }
            None => assert!(words.starts_with("x: accepted, "), "{name}: {words}"),
        }
    }
}

/// What was given, and the words, behind the name of the file.
#[test]
fn it_says_why_it_cannot() {
    let folder = folder("checked_not");
    let file = format!("{folder}/x.caisson");
    for (bytes, words) in [
        (
            &b"label low\nstate root : high { fall }\n"[..],
            ":2:14: expected the name of a label, found `high`\n    state root : high { fall }\n                 ^\n",
        ),
        (b"", ":1:1: expected at least one label, found the end of the text\n    \n    ^\n"),
        (b"\n\n", ":2:1: expected at least one label, found the end of the text\n    \n    ^\n"),
        (
            b"gates\ngate g = nand g h\n",
            ":2:17: expected the name of a wire, found `h`\n    gate g = nand g h\n                    ^\n",
        ),
        (
            b"\x14\0\x02\0",
            ": is a table and no text: `caisson print` makes a text of it, `caisson explain` judges it\n",
        ),
    ] {
        fs::write(&file, bytes).unwrap();
        let expected = (Some(2), String::new(), format!("{file}{words}"));
        assert_eq!(said(&["check", &file]), expected);
    }
    let missing = format!("{folder}/none.caisson");
    let expected = format!("{missing}: No such file or directory (os error 2)\n");
    assert_eq!(
        said(&["check", &missing]),
        (Some(2), String::new(), expected)
    );
}

/// The examples of the READMEs are what the tool says.
#[test]
fn readmes_show_what_is_said() {
    let pump = "# A pump that rests after three cycles.\nlabel site\n\nregister timer : site = 0\n\n\
                state root : site { fall }\nstate pump in root : site {\n    timer := timer + 1;\n    \
                if timer > 3 then goto rest else goto pump\n}\nstate rest in root : site {\n    \
                timr := timer - 1;\n    if timer then goto rest\n}\n";
    let faults = check("pump.caisson", pump).err().expect("faults");
    let faults = faults.report("pump.caisson", pump) + "\n";
    let shown = |readme: &str, design: &str, words: &str| {
        let example = format!("$ caisson check {design}\n{words}");
        assert!(text(readme).contains(&example), "{readme}\n{example}");
    };
    shown("designs/README.md", "pump.caisson", &(faults + "```"));
    for (readme, design) in [
        ("designs/README.md", "designs/leak.caisson"),
        ("tools/README.md", "designs/lease.caisson"),
        ("tools/README.md", "designs/counter.caisson"),
    ] {
        let words = check(design, &text(design)).unwrap().words;
        shown(readme, design, &words);
    }
}
