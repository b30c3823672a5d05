//! States with parameters as text: the bytes they give, their names, and what each fault says.

use crate::common::{bytes, text};
use caisson_tools::{assemble, print, read, Table};

/// A design with labels low, north and high, registers `a` and `b` of low and `c` of north, and a port.
fn with_states(states: &str) -> String {
    format!(
        "label low -> north, high\nlabel north -> high\nlabel high\n\
         register a : low = 0\nregister b : low = 0\nregister c : north = 0\nport d : low = 0\n\
         state root : low {{ fall }}\nstate idle in root : low {{ goto idle }}\n{states}\n"
    )
}

fn table(states: &str) -> Table {
    read(&assemble(&with_states(states)).unwrap()).unwrap()
}

/// The record of a state.
fn record(states: &str, state: usize) -> Vec<u8> {
    let image = assemble(&with_states(states)).unwrap();
    let at = usize::from(u16::from_le_bytes([image[8], image[9]]));
    image[at + 9 * state..][..9].to_vec()
}

fn fault(states: &str) -> String {
    let found = assemble(&with_states(states)).unwrap_err().to_string();
    found.split_once(": ").unwrap().1.to_string()
}

#[test]
fn records_have_count_and_bounds() {
    let states = "state s(p : low..north) in root : p { goto s(a) }\n\
                  state t(p : north..high, q : high..high) in root : q { goto idle }\n\
                  state u in root : low { goto idle }";
    assert_eq!(record(states, 2), [0, 16, 2, 0, 1, 0, 1, 0, 0]);
    assert_eq!(record(states, 3), [0, 17, 3, 0, 2, 1, 2, 2, 2]);
    assert_eq!(record(states, 4), [0, 0, 4, 0, 0, 0, 0, 0, 0]);
}

/// Own ones come last, whatever names the states above have given.
#[test]
fn parameters_are_numbered_along_the_line() {
    let table = table(
        "state s(p : low..high) in root : low { p := p + a; fall }\n\
         state s0 in s : p { goto s1(p) }\n\
         state s1(q : low..high) in s : q { q := p; goto s1(q) }\n\
         state t(q : low..low, p : low..high) in root : p { p := q; goto t(b, c) }\n\
         state u(x : low..low, y : low..low) in root : x { x := y; goto u(y, x) }",
    );
    let commands: Vec<[u8; 8]> = table.commands.iter().map(|node| node.bytes()).collect();
    let expressions: Vec<[u8; 8]> = table.expressions.iter().map(|node| node.bytes()).collect();
    // p := p + a
    assert_eq!(commands[2][..2], [1, 64]);
    assert_eq!(expressions[0], [1, 64, 0, 0, 0, 0, 0, 0]);
    // goto s1(p), in the default child of s, which has p in scope
    assert_eq!(commands[5], [4, 4, 64, 0, 0, 0, 0, 0]);
    // q := p; goto s1(q)
    assert_eq!(commands[6][..2], [1, 65]);
    assert_eq!(commands[7], [4, 4, 65, 0, 0, 0, 0, 0]);
    assert_eq!(table.states[3].label, 16);
    assert_eq!(table.states[4].label, 17);
    // p := q; goto t(b, c)
    assert_eq!(commands[9][..2], [1, 65]);
    assert_eq!(commands[10], [4, 5, 1, 0, 2, 0, 0, 0]);
    // goto u(y, x)
    assert_eq!(commands[13], [4, 6, 65, 0, 64, 0, 0, 0]);
}

/// Text, table, text and table again.
#[test]
fn parameters_come_back() {
    for name in [
        "two_groups_shared",
        "duty_pumps",
        "slot",
        "default_parameter",
    ] {
        let image = bytes(&format!("designs/{name}.table"));
        assert_eq!(
            assemble(&text(&format!("designs/{name}.caisson"))).unwrap(),
            image
        );
        let printed = print(&read(&image).unwrap());
        assert_eq!(assemble(&printed).unwrap(), image, "{printed}");
        assert_eq!(print(&read(&assemble(&printed).unwrap()).unwrap()), printed);
    }
    let printed = print(&read(&bytes("designs/duty_pumps.table")).unwrap());
    for line in [
        "state s2(p0 : l0..l3, p1 : l0..l3) in s0 : l0 {",
        "state s3 in s2 : p0 { p0 := p0 + 1; goto s3 }",
    ] {
        assert!(printed.lines().any(|one| one == line), "{printed}");
    }
    assert!(printed.contains("goto s2(p1, p0)"), "{printed}");
    assert!(printed.contains("goto s2(r2, r3)"), "{printed}");
}

/// Names go by the number in scope, so below another parameter the first own one is `p1`.
#[test]
fn names_are_made_from_numbers() {
    let states = "state s(first : low..high) in root : low { fall }\n\
                  state s0 in s : first { goto s1(first) }\n\
                  state s1(second : low..high) in s : second { second := first; goto s1(second) }";
    let printed = print(&table(states));
    for line in [
        "state s2(p0 : l0..l2) in s0 : l0 { fall }",
        "state s3 in s2 : p0 { goto s4(p0) }",
        "state s4(p1 : l0..l2) in s2 : p1 { p1 := p0; goto s4(p1) }",
    ] {
        assert!(printed.lines().any(|one| one == line), "{printed}");
    }
    assert_eq!(
        assemble(&printed).unwrap(),
        assemble(&with_states(states)).unwrap()
    );
}

/// What no text has stands in brackets.
#[test]
fn odd_parameters_are_printed() {
    let mut odd = table(
        "state s(p : low..north) in root : p { p := p; goto s(p) }\n\
         state t in root : low { goto idle }",
    );
    odd.states[2].count = 3;
    odd.states[2].bounds[1].upper = 9;
    odd.states[3].bounds[1].lower = 7;
    odd.states[3].label = 17;
    odd.commands[5].a = 64;
    let printed = print(&odd);
    for line in [
        "state s2(p0 : l0..l1, p1 : l0..[label 9], [count 3]) in s0 : p0 { p0 := p0; goto s2(p0, r0) }",
        "state s3([unused 7..0]) in s0 : [parameter 1] { goto s1([argument 64]) }",
    ] {
        assert!(printed.lines().any(|one| one == line), "{line}\n{printed}");
    }
    assert!(assemble(&printed).is_err());
    let mut odd = table("state s(p : low..north) in root : p { goto s(a) }");
    odd.commands[2].a = 65;
    assert!(print(&odd).contains("goto s2([parameter 1])"));
    odd.commands[2].a = 63;
    assert!(print(&odd).contains("goto s2([register 63])"));
    odd.commands[2].a = 66;
    assert!(print(&odd).contains("goto s2([register 66])"));
    odd.commands[2].a = 300;
    assert!(print(&odd).contains("goto s2([register 300])"));
}

/// Three in scope can be declared: the library refuses them by 19. Two of them have a byte to name them.
#[test]
fn more_than_two_in_scope() {
    let states = |body: &str| {
        format!(
            "state s(p : low..high, q : low..high) in root : low {{ fall }}\n\
             state s0 in s : high {{ goto s0 }}\n\
             state s1(x : low..high) in s : high {{ {body} }}"
        )
    };
    assert_eq!(table(&states("goto s0")).scope(4).len(), 3);
    assert!(assemble(&with_states(&states("p := q; goto s0"))).is_ok());
    assert_eq!(
        fault(&states("x := q; goto s0")),
        "expected one of the first 2 parameters in scope, found `x`"
    );
}

#[test]
fn faults_of_parameters() {
    let hidden = "expected a name that no register, label or parameter in scope has, found ";
    let register = "expected the name of a register, found ";
    for (states, message) in [
        ("state s(a : low..low) in root : low { fall }", format!("{hidden}`a`")),
        ("state s(north : low..low) in root : low { fall }", format!("{hidden}`north`")),
        ("state s(p : low..low, p : low..low) in root : low { fall }", format!("{hidden}`p`")),
        (
            "state s(p : low..low) in root : low { fall }\nstate t(p : low..low) in s : low { goto t(a) }",
            format!("{hidden}`p`"),
        ),
        ("state s() in root : low { fall }", "expected the parameter's name, found `)`".to_string()),
        ("state s(p) in root : low { fall }", "expected `:` and a label, found `)`".to_string()),
        ("state s(p : low) in root : low { fall }", "expected `..` and the upper label, found `)`".to_string()),
        ("state s(p : low..) in root : low { fall }", "expected the name of a label, found `)`".to_string()),
        ("state s(p : low..mid) in root : low { fall }", "expected the name of a label, found `mid`".to_string()),
        ("state s(p : low.north) in root : low { fall }", "expected a name, a number or a symbol, found `.`".to_string()),
        ("state s(p : low..low in root : low { fall }", "expected `,` or `)`, found `in`".to_string()),
        (
            "state s(p : low..low, q : low..low, r : low..low) in root : low { fall }",
            "expected at most 2 parameters of a state, found one more".to_string(),
        ),
        // Outside the state that declares it, a parameter's name is none.
        (
            "state s(p : low..low) in root : low { goto idle }\nstate t in root : low { p := 1; goto t }",
            format!("{register}`p`"),
        ),
        (
            "state s(p : low..low) in root : low { goto idle }\nstate t in root : p { goto t }",
            "expected the name of a label, found `p`".to_string(),
        ),
        ("state s(p : low..low) in root : low { a := q; goto s(a) }", format!("{register}`q`")),
        // A field that is left out would be register 0.
        ("state s(p : low..low) in root : low { goto s }", "expected 1 argument behind `s`, found 0".to_string()),
        ("state s(p : low..low) in root : low { goto s(a, b) }", "expected 1 argument behind `s`, found 2".to_string()),
        ("state s in root : low { goto s(a) }", "expected 0 arguments behind `s`, found 1".to_string()),
        (
            "state s(p : low..low, q : low..low) in root : low { goto s(a) }",
            "expected 2 arguments behind `s`, found 1".to_string(),
        ),
        ("state s in root : low { goto s() }", "expected the name of a register or a parameter, found `)`".to_string()),
        ("state s in root : low { goto s(1) }", "expected the name of a register or a parameter, found `1`".to_string()),
        ("state s in root : low { goto s(a b) }", "expected `,` or `)`, found `b`".to_string()),
        ("state s in root : low { goto s(a, b, c) }", "expected at most 2 arguments, found one more".to_string()),
    ] {
        assert_eq!(fault(states), message, "{states}");
    }
}

/// A state may be called as a parameter is, and two states side by side may have the same names.
#[test]
fn names_may_serve_again() {
    let states = "state p(p : low..high) in root : p { goto q(a, p) }\n\
                  state q(q : low..high, p : low..high) in root : low { goto p(q) }";
    assert_eq!(table(states).commands[3].bytes(), [4, 2, 64, 0, 0, 0, 0, 0]);
}
