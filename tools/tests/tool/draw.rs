//! Designs drawn: what each part of a design gives.

use crate::common::{bytes, text};
use caisson_tools::draw::{draw_table, draw_text};
use caisson_tools::{read, Table};

fn graph(source: &str) -> String {
    draw_text(source).unwrap().graph
}

/// Two registers, a state `s` with this body, and beside it `t`, which has a parameter.
fn with_body(body: &str) -> String {
    format!(
        "label low -> high\nlabel high\nregister a : low = 0\nregister b : low = 0\n\
         state root : low {{ fall }}\nstate s in root : low {{ {body} }}\n\
         state t(p : low..high) in root : low {{ goto s }}\nstate u in s : high {{ goto u }}\n"
    )
}

/// The arrows of gotos and falls of a state, as what is shown below the pointer, which has all that the label has.
fn arrows(graph: &str, state: &str) -> Vec<String> {
    let lines = graph.lines().filter(|line| line.contains(" -> "));
    let hints = lines.filter_map(|line| line.split_once(" tooltip=\"")?.1.split('"').next());
    let ways = [format!("{state} falls"), format!("{state} goes to ")];
    hints
        .filter(|hint| ways.iter().any(|way| hint.starts_with(way)))
        .map(str::to_string)
        .collect()
}

#[test]
fn every_way_out_is_an_arrow() {
    let all: &[(&str, &[&str])] = &[
        ("goto s", &["s goes to s"]),
        ("fall", &["s falls"]),
        ("a := 1; goto t(b)", &["s goes to t with p = b"]),
        (
            "if a then fall else goto s",
            &["s falls if a", "s goes to s if not (a)"],
        ),
        (
            "if a == 0 then goto t(a) else goto t(b)",
            &[
                "s goes to t with p = a if a == 0",
                "s goes to t with p = b if not (a == 0)",
            ],
        ),
        (
            "if a then if b < 3 then fall else goto s else goto t(a)",
            &[
                "s falls if a and b < 3",
                "s goes to s if a and not (b < 3)",
                "s goes to t with p = a if not (a)",
            ],
        ),
        // Two ways to one state are one arrow, and where all lead there nothing decides.
        (
            "if a then goto s else if b then fall else goto s",
            &[
                "s goes to s if a or not (a) and not (b)",
                "s falls if not (a) and b",
            ],
        ),
        ("if a & 1 then goto s else goto s", &["s goes to s"]),
        (
            "if a & (b | 1) then fall else goto s",
            &[
                "s falls if a &amp; (b | 1)",
                "s goes to s if not (a &amp; (b | 1))",
            ],
        ),
        (
            "if a - 4294967295 <$ -1 then fall else goto s",
            &[
                "s falls if a - 4294967295 <$ -1",
                "s goes to s if not (a - 4294967295 <$ -1)",
            ],
        ),
    ];
    for (body, expected) in all {
        assert_eq!(arrows(&graph(&with_body(body)), "s"), *expected, "{body}");
    }
}

/// Whichever way an arrow goes, the state with the lower number is laid out above.
#[test]
fn arrows_point_where_the_goto_leads() {
    let graph = graph(&with_body("if a then goto t(a) else goto s"));
    for (start, hint) in [
        ("s1 -> s2 [label", "s goes to t with p = a if a"),
        ("s1 -> s1 [label", "s goes to s if not (a)"),
        ("s1 -> s2 [dir=back, ", "t goes to s"),
    ] {
        let hint = format!(" tooltip=\"{hint}\"");
        let found = |line: &str| line.trim_start().starts_with(start) && line.contains(&hint);
        assert_eq!(
            graph.lines().filter(|line| found(line)).count(),
            1,
            "{start}\n{graph}"
        );
    }
}

/// What the label of an arrow leaves out stands below the pointer.
#[test]
fn long_conditions_are_cut() {
    let condition = (0..12).map(|_| "a + b").collect::<Vec<_>>().join(" + ");
    let graph = graph(&with_body(&format!("if {condition} then fall else goto s")));
    assert!(graph.contains(&format!("\"s falls if {condition}\"")));
    assert!(graph.contains("<td>a + b + a + b + a + b + a + b + a +…<br/><i>fall</i></td>"));
}

#[test]
fn groups_are_nested_in_their_parents() {
    let graph = graph(&with_body("if a then fall else goto t(b)"));
    let shape: Vec<&str> = (graph.lines())
        .map(|line| line.split(" [").next().unwrap())
        .filter(|line| !line.contains("->") && !line.trim().starts_with(['l', 'n', 'e']))
        .collect();
    assert_eq!(
        shape,
        [
            "digraph design {",
            "    graph",
            "    subgraph cluster_0 {",
            "        graph",
            "        s0",
            "        dot0",
            "        subgraph cluster_1 {",
            "            graph",
            "            s1",
            "            dot1",
            "            s3",
            "        }",
            "        s2",
            "    }",
            "}",
        ]
    );
}

/// A dot with an arrow to the default child; nothing comes to it where the state holds no fall.
#[test]
fn default_children_have_a_dot() {
    let falls = graph(&with_body("if a then fall else goto s"));
    assert!(falls.contains("dot1 -> s3 [weight=8, tooltip=\"u is the default child of s\"];"));
    assert!(falls.contains("s1 -> dot1 [style=dashed, "));
    let never = graph(&with_body("goto s"));
    assert!(never.contains("dot1 -> s3 [weight=8, style=dotted, tooltip=\"s holds no fall\"];"));
    assert!(never.contains("s1 -> dot1 [style=invis, "));
    assert!(!never.contains("s3 -> dot3") && !never.contains("dot3"));
}

#[test]
fn boxes_have_labels_parameters_and_what_is_set() {
    let graph = graph(&text("designs/slot.caisson"));
    for part in [
        "<b>slot</b>(used : site..north)<br/><i>label of used, site..north</i>",
        "fillcolor=\"#ffffff:#9ecae1\"",
        "sets left, turn</font>",
        "<td border=\"1\" bgcolor=\"#9ecae1\"><i>north</i></td><td align=\"left\">flows to no other</td>",
        "<td border=\"1\" bgcolor=\"#ffffff\"><i>site</i></td><td align=\"left\">flows to north</td>",
    ] {
        assert!(graph.contains(part), "{part}\n{graph}");
    }
}

/// Sixteen labels have sixteen looks.
#[test]
fn labels_can_be_told_apart() {
    let table = Table {
        rows: vec![u16::MAX; 16],
        ..read(&bytes("designs/lease.table")).unwrap()
    };
    let graph = draw_table(&table.image()).unwrap().graph;
    let mut looks: Vec<&str> = graph
        .split("<td border=\"1\" ")
        .skip(1)
        .map(|cell| cell.split('>').next().unwrap())
        .collect();
    assert_eq!(looks.len(), 16);
    looks.sort();
    looks.dedup();
    assert_eq!(looks.len(), 16);
}

/// A table has no names, so that it is the drawing of the text with numbers in their place.
#[test]
fn a_table_is_drawn_by_numbers() {
    let graph = draw_table(&bytes("designs/two_groups_shared.table")).unwrap();
    assert_eq!(graph.answer.number, 0);
    for part in [
        "<b>s2</b>(p0 : l0..l1)<br/><i>l0</i>",
        "<i>label of p0, l0..l1</i>",
        "\"s1 goes to s2 with p0 = r4 if r1 == 0\"",
    ] {
        assert!(graph.graph.contains(part), "{part}");
    }
}
