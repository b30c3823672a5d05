//! The chains that are told of a design without a raising, held against its table.

use caisson_tests::generate::chained;
use caisson_tests::generate::random::Random;
use caisson_tests::table::Table;
use caisson_tools::raise::raise_table;

/// The number behind a letter, up to what is no digit.
fn number(text: &str) -> usize {
    let digits: String = text[1..].chars().take_while(char::is_ascii_digit).collect();
    digits.parse().unwrap_or_else(|_| panic!("{text}"))
}

/// The word of a line behind some words.
fn behind<'a>(line: &'a str, words: &str) -> Option<&'a str> {
    let (_, rest) = line.split_once(words)?;
    rest.split([' ', ':', ',']).next()
}

/// All registers that an expression reads.
fn reads(table: &Table, expression: u16) -> Vec<usize> {
    let node = table.expressions[usize::from(expression)];
    match node.kind {
        0 => Vec::new(),
        1 => vec![node.which.into()],
        _ => [reads(table, node.a), reads(table, node.b)].concat(),
    }
}

/// The registers that the conditions around a command read.
fn conditions(table: &Table, command: usize) -> Vec<usize> {
    let owner = table.commands.iter().position(|node| match node.kind {
        2 => [node.a, node.b].map(usize::from).contains(&command),
        5 => [node.b, node.c].map(usize::from).contains(&command),
        _ => false,
    });
    let Some(owner) = owner else {
        return Vec::new();
    };
    let mut around = conditions(table, owner);
    if table.commands[owner].kind == 5 {
        around.extend(reads(table, table.commands[owner].a));
    }
    around
}

/// A line of a chain. Gives the register that it comes to.
fn follow(table: &Table, line: &str, from: Option<usize>) -> usize {
    let written = number(line.trim_start());
    let command: usize = behind(line, "command ").unwrap().parse().unwrap();
    let node = table.commands[command];
    assert_eq!((node.kind, usize::from(node.which)), (1, written), "{line}");
    if let Some(read) = behind(line, "what reads ") {
        assert_eq!(from, Some(number(read)), "{line}");
        assert!(reads(table, node.a).contains(&number(read)), "{line}");
    } else if let Some(read) = behind(line, "an if that reads ") {
        assert_eq!(from, Some(number(read)), "{line}");
        assert!(conditions(table, command).contains(&number(read)), "{line}");
    } else {
        assert!(from.is_none() && line.contains(" is assigned there: "));
    }
    written
}

/// From "How the label came to r2:" to the empty line behind it.
fn follow_chain(table: &Table, chain: &str, target: u8) -> usize {
    let mut lines = chain.lines();
    let last = number(lines.next().unwrap());
    let begin = lines.next().unwrap().trim_start();
    let label = number(behind(begin, " : ").unwrap()) as u8;
    assert!(!table.flows(label, target), "{chain}");
    let (what, name) = begin.split_once(' ').unwrap();
    let (mut from, given) = match what {
        "state" => (None, table.states[number(name)].label),
        _ => (Some(number(name)), table.registers[number(name)].label),
    };
    assert_eq!(label, given, "{chain}");
    let mut links = 0;
    for line in lines {
        from = Some(follow(table, line, from));
        links += 1;
    }
    assert_eq!(from, Some(last), "{chain}");
    links
}

#[test]
fn chains_are_those_of_the_table() {
    let mut random = Random::new(62);
    let mut longest = 0;
    let mut chains = 0;
    for _ in 0..600 {
        let table = chained(&mut random);
        let words = raise_table(&table.image()).words;
        if !words.starts_with("refused by 18") {
            continue;
        }
        let (_, target) = words.split_once(" does not flow to s").unwrap();
        let target = number(behind(target, " : ").unwrap()) as u8;
        for chain in words.split("How the label came to ").skip(1) {
            let (chain, _) = chain.split_once("\n\n").unwrap();
            longest = longest.max(follow_chain(&table, chain, target));
            chains += 1;
        }
    }
    assert!(chains >= 100 && longest >= 4, "{chains} {longest}");
}
