//! Texts explained: the line and the column of what stands at the place.

use crate::common::{bytes, designs_alone, explained_text, text};
use caisson_tools::{assemble_placed, explain, library, old};

/// The text without its `@` is refused, and the marker stands where that was.
fn assert_points(number: u32, marked: &str) {
    let (before, after) = marked.split_once('@').expect("a mark");
    let shown = explained_text(&format!("{before}{after}"));
    let verdict = format!("refused by {number} at place ");
    assert!(shown.starts_with(&verdict), "{marked}\n{shown}");
    let (lines, start) = before.rsplit_once('\n').expect("a line before");
    let (line, column) = (lines.lines().count() + 1, start.len() + 1);
    let rest = after.lines().next().unwrap();
    let marker = " ".repeat(start.len()) + "^";
    let expected = format!(
        "\n\nIn the text, line {line}, column {column}:\n    {start}{rest}\n    {marker}\n"
    );
    assert!(shown.ends_with(&expected), "{expected}\n{shown}");
}

/// In a design with two labels, a register of each, a port, a root and these states.
fn assert_states_point(number: u32, states: &str) {
    let declared = "label low -> high\nlabel high\nregister open : low = 0\n\
                    register hidden : high = 0\nport secret : high = 0\nstate root : low { fall }\n";
    assert_points(number, &format!("{declared}{states}\n"));
}

/// Of several faults of 10 to 12 the one that is read first: in the first state, of a sequence from its
/// first part on, of an if from its first branch on.
#[test]
fn flow_faults_are_pointed_at_in_reading_order() {
    let others = "state t in root : low { open := hidden; if secret then fall else goto s }\n\
                  state u in t : low { goto u }\nstate v in s : low { goto v }";
    for (number, body) in [
        (10, "hidden := secret;\n    @open := secret;\n    if hidden then goto s else fall"),
        (10, "if secret then {\n        hidden := 1;\n        @open := 1\n    } else open := 0;\n    goto s"),
        (10, "if secret then hidden := 1 else { skip; @open := 0 };\n    open := hidden;\n    goto t"),
        (10, "{ hidden := 1; open := open }; hidden := open; @open := hidden; fall"),
        (11, "if secret then\n        @goto s\n    else { open := 1; goto t }"),
        (11, "if secret then { skip; @goto s } else if open then fall else goto t"),
        (12, "if secret & 1 then @fall else { open := 2; goto t }"),
        (12, "if open then if hidden then @fall else goto s else { open := hidden; goto t }"),
    ] {
        let state = format!("state s in root : low {{\n    {body}\n}}");
        assert_states_point(number, &format!("{state}\n{others}"));
    }
}

/// 8 stays at the lowest node: the inner if, though the outer one is read first.
#[test]
fn shapes_are_pointed_at() {
    for body in [
        "open := 1;\n    @if open then goto s else skip",
        "if open then { @if hidden then goto s else skip; goto s } else skip",
        "hidden := 1; @fall",
        // Sequences begin where their first part does.
        "open := 1; @goto s; open := 2; goto s",
        "open := 1; { { @skip; goto s }; skip }; goto s",
        "@open := 1; open := 2",
    ] {
        assert_states_point(8, &format!("state s in root : low {{\n    {body}\n}}"));
    }
}

#[test]
fn ports_and_depths_are_pointed_at() {
    let state = |body: &str| format!("state s in root : low {{ {body}; goto s }}");
    assert_states_point(
        16,
        &state("hidden := 0; if open then @secret := 0 else secret := 1"),
    );
    // An operation begins where its first part does.
    let ones = "1 + ".repeat(64);
    assert_states_point(7, &state(&format!("hidden := 2; open :=\n  @{ones}1")));
    let nested = format!("open - ({} 1{}", "1 + (".repeat(64), ")".repeat(65));
    assert_states_point(
        7,
        &state(&format!("open :=\n{}", nested.replacen('1', "@1", 1))),
    );
}

/// At their names.
#[test]
fn declarations_are_pointed_at() {
    let states = "state root : low { fall } state s in root : low { goto s }";
    assert_points(
        2,
        &format!("label low -> a, b\nlabel @a\nlabel b\n{states}"),
    );
    let registers = "register r : low = 2 register @flag : low width 1 = 2";
    assert_points(3, &format!("label low\n{registers}\n{states}"));
    assert_states_point(
        4,
        "state s in root : low { goto s }\n  state @t in t : low { goto t }",
    );
    let group = "state s in root : low { fall }\nstate h in s : high { fall }";
    assert_states_point(9, &format!("{group} state @c in h : low {{ goto c }}"));
}

/// A tab is as wide below the line as in it, and a line may end in other ways.
#[test]
fn markers_stand_below_tabs() {
    let shown = explained_text(
        "label low\r\n\tport p : low = 0\t# é\r\nstate root : low { fall }\r\n\
         state s in root : low {\r\n\t\tskip;\tp := 1; goto s }\t# é\r\n",
    );
    let expected = "\nIn the text, line 5, column 9:\n    \t\tskip;\tp := 1; goto s }\t# é\n    \t\t     \t^\n";
    assert!(shown.ends_with(expected), "{shown}");
}

/// What a table's explanation has by the text's names, and the line of the text after it.
#[test]
fn designs_are_explained_alike() {
    for name in designs_alone() {
        let image = bytes(&format!("designs/{name}.table"));
        let source = text(&format!("designs/{name}.caisson"));
        let names = assemble_placed(&source).unwrap().1.into_names();
        let table = explain::explain_named(&image, Some(&names), library::check(&image));
        let shown = explained_text(&source);
        let line = shown
            .strip_prefix(&table)
            .unwrap_or_else(|| panic!("{name}: {shown}"));
        if table == "accepted\n" {
            assert_eq!(line, "", "{name}");
        } else {
            assert!(line.starts_with("\nIn the text, line "), "{name}: {line}");
        }
    }
}

/// Four states of 9 bytes are nine of 4 bytes. A text is of no format.
#[test]
fn no_text_is_taken_for_an_old_table() {
    // The numbers of the commands are so that they are parents, labels and commands in the old records.
    let long = "skip; ".repeat(127);
    let source = format!(
        "label low -> high\nlabel high\nstate root : low {{ fall }}\n\
         state a in root : low {{ goto a }}\nstate b in c : low {{ goto b }}\n\
         state c in root : low {{ {long}goto c }}\n"
    );
    let (image, _) = assemble_placed(&source).unwrap();
    assert_eq!(old::form(&image), old::Form::Old(2));
    let advice = old::advice(&image).unwrap();
    let shown = explain::explain(&image, library::check(&image));
    assert!(shown.ends_with(&format!("It {advice}.\n")), "{shown}");
    assert!(!explained_text(&source).contains(&advice));
}
