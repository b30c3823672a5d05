//! What people write from habit, and the hint that they get.

use crate::common::with_body;
use caisson_tools::assemble;

/// The words behind the only fault of a text, with its column.
fn hint(source: &str) -> (usize, String) {
    let faults = assemble(source).unwrap_err();
    let [fault] = faults.list() else {
        panic!("{source}\n{faults}");
    };
    let hint = fault.hint.clone().unwrap_or_default();
    (fault.at.column, hint)
}

/// In the body of a state: where the fault is, and the hint. The body begins at column 25.
#[test]
fn habits_in_bodies() {
    for (body, column, words) in [
        (
            "if a > b then goto s else goto s",
            30,
            "there is no `>`: write `b < a`",
        ),
        (
            "if a >= b then goto s else goto s",
            30,
            "there is no `>=`: write `(a < b) == 0`",
        ),
        (
            "if a <= b then goto s else goto s",
            30,
            "there is no `<=`: write `(b < a) == 0`",
        ),
        (
            "if !a then goto s else goto s",
            28,
            "there is no `!`: write `a == 0`",
        ),
        ("a := ~b; goto s", 30, "there is no `~`: write `a ^ -1`"),
        (
            "if a != b then goto s else goto s",
            30,
            "there is no `!=`: write `(a == b) == 0`",
        ),
        (
            "if a = b then goto s else goto s",
            30,
            "to compare write `==`",
        ),
        ("a := b = 1; goto s", 32, "to compare write `==`"),
        ("a := (b := 1); goto s", 33, "to compare write `==`"),
        ("a = 1; goto s", 27, "an assignment is written with `:=`"),
        ("a == 1; goto s", 27, "an assignment is written with `:=`"),
        (
            "a := b && c; goto s",
            32,
            "there is no `&&`: write `(a == 1) & (b == 2)`",
        ),
        (
            "a := b || c; goto s",
            32,
            "there is no `||`: write `(a == 1) | (b == 2)`",
        ),
        (
            "a := b * c; goto s",
            32,
            "there is no `*`: write `a + a` for `2 * a`",
        ),
        (
            "a := b % 8; goto s",
            32,
            "there is no `%`: write `a & 7` for the rest of a division by 8",
        ),
        ("a := b / 8; goto s", 32, "write `a /$ b`"),
        ("a := b >> 8; goto s", 32, "write `a >>$ b`"),
        (
            "a := b << 8; goto s",
            32,
            "there is no `<<`: `a + a` is a shift by 1",
        ),
        ("a++; goto s", 26, "there is no `++`: write `a := a + 1`"),
        ("a += 1; goto s", 27, "there is no `+=`: write `a := a + b`"),
        ("a -= 1; goto s", 27, "there is no `-=`: write `a := a - b`"),
        (
            "if a then b := 1; goto s",
            41,
            "every if has an else: write `else skip`",
        ),
        (
            "if a then goto s",
            42,
            "every if has an else: write `else skip`",
        ),
        (
            "if a then b := 1; c := 2 else skip; goto s",
            41,
            "a sequence in a branch stands in braces: `{ a; b }`",
        ),
        (
            "if a then b := 1; else skip; goto s",
            41,
            "no `;` stands before `else`",
        ),
        (
            "if a b := 1 else skip; goto s",
            30,
            "write `then` before the first branch",
        ),
        (
            "if (a) { goto s } else { goto s }",
            32,
            "write `then` before the first branch",
        ),
        ("if a thne goto s else goto s", 30, "did you mean `then`?"),
        ("if a then goto s esle goto s", 42, "did you mean `else`?"),
        ("a := 1; goto s;", 41, "no `;` stands before `}`"),
        ("a := 1;; goto s", 32, "one `;` stands between two commands"),
        (
            "if a then { } else skip; goto s",
            37,
            "a block has a command: write `{ skip }`",
        ),
        ("a := 1 b := 2; goto s", 32, "commands are parted by `;`"),
        (
            "if a then { b := 1 else { b := 2 }; goto s",
            44,
            "the block before `else` ends with `}`",
        ),
        (
            "goto s // home",
            32,
            "a comment begins with `#` and goes to the end of the line",
        ),
        (
            "goto s /* home */",
            32,
            "a comment begins with `#` and goes to the end of the line; each line has its own",
        ),
        (
            "a := \"b; c\"; goto s",
            30,
            "there are no strings: values are numbers, and names stand without quotes",
        ),
        (
            "a := 'b'; goto s",
            30,
            "there are no characters: values are numbers, and names stand without quotes",
        ),
        ("a := 0x1F; goto s", 30, "numbers are decimal: 0x1F is 31"),
        ("a := 0XfF; goto s", 30, "numbers are decimal: 0XfF is 255"),
        ("a := 0b101; goto s", 30, "numbers are decimal: 0b101 is 5"),
        (
            "a := 1_000; goto s",
            30,
            "digits stand together: write 1000",
        ),
        ("a := 1x; goto s", 30, ""),
        ("a := true; goto s", 30, "there is no `true`: write 1"),
        ("a := FALSE; goto s", 30, "there is no `false`: write 0"),
        ("a := B; goto s", 30, "did you mean `b`?"),
        ("a := d; goto s", 30, ""),
        ("a := root; goto s", 30, "`root` is a state"),
        ("goto rot", 30, "did you mean `root`?"),
        ("goto a", 30, "`a` is a register"),
        ("gto s", 25, "did you mean `goto`?"),
        (
            "a := [expression 3]; goto s",
            30,
            "what a print has in square brackets has no form in the text",
        ),
        (
            "a := 1.5; goto s",
            31,
            "there are no fractions and no fields: numbers are whole",
        ),
    ] {
        let mut source = with_body(body);
        if body.contains("//") {
            source = source.replace(" }\n", "\n}\n");
            source = source.replace("low { fall\n}", "low { fall }");
        }
        assert_eq!(hint(&source), (column, words.to_string()), "{body}");
    }
}

#[test]
fn habits_in_declarations() {
    let state = "state root : site { fall } state s in root : site { goto s }\n";
    for (declared, column, words) in [
        ("lable north", 1, "did you mean `label`?"),
        ("Register timer : site = 0", 1, "did you mean `register`?"),
        ("prot timer : site = 0", 1, "did you mean `port`?"),
        ("label width", 7, "`width` is no name"),
        ("register timer : sitte = 0", 18, "did you mean `site`?"),
        ("register timer : s = 0", 18, "`s` is a state"),
        (
            "register timer : site = 0 register timer : site = 1",
            36,
            "line 2 declares it first",
        ),
        (
            "register timer : site = 0x10",
            25,
            "numbers are decimal: 0x10 is 16",
        ),
        (
            "register timer : site width 0x10 = 0",
            29,
            "numbers are decimal: 0x10 is 16",
        ),
        ("state t root : site { goto t }", 9, "write `in root`"),
        (
            "register wärme : site = 0",
            11,
            "a name has letters from a to z, digits and `_` alone",
        ),
    ] {
        let source = format!("label site {state}{declared}\n");
        assert_eq!(hint(&source), (column, words.to_string()), "{declared}");
    }
}

/// Only so near that it may be meant: two edits in long names, one in short ones.
#[test]
fn near_names_are_offered() {
    for (name, words) in [
        ("timre", "did you mean `timer`?"),
        ("tmir", "did you mean `timer`?"),
        ("tmr", "did you mean `timer`?"),
        ("tm", ""),
        ("Timer", "did you mean `timer`?"),
        ("tiiimer", "did you mean `timer`?"),
        ("counter", ""),
    ] {
        let source = format!(
            "label low\nregister timer : low = 0\nstate root : low {{ timer := {name}; fall }}\n\
             state s in root : low {{ goto s }}"
        );
        assert_eq!(hint(&source).1, words, "{name}");
    }
}

/// Behind the line and its marker.
#[test]
fn hints_stand_behind_the_fault() {
    let source = "label low\nstate root : low {\n\tif 2 > 1 then fall\n\telse fall }\n";
    let report = assemble(source).unwrap_err().report("x.caisson", source);
    let expected = "x.caisson:3:7: expected a name, a number or a symbol, found `>`\n    \
                    \tif 2 > 1 then fall\n    \t     ^\n    hint: there is no `>`: write `b < a`";
    assert_eq!(report, expected);
}
