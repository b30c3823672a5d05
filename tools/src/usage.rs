//! What is said where the arguments are none that a command takes.

use caisson_tools::near::near;

/// The usage, behind the name of a command or an option that there is not. Those that there are are read off the usage.
pub fn refusal(usage: &str, arguments: &[&str]) -> String {
    let lines = usage.lines().filter_map(|line| line.split_once("caisson "));
    let commands: Vec<&str> = lines
        .filter_map(|(_, rest)| rest.split_whitespace().next())
        .collect();
    let options: Vec<&str> = usage
        .split([' ', '\n', '[', ']', '|', ','])
        .filter(|word| word.starts_with('-') && word.len() > 1)
        .collect();
    let unknown = match arguments.first() {
        Some(option) if option.starts_with('-') => Some(("option", *option, &options)),
        Some(command) if !commands.contains(command) => Some(("command", *command, &commands)),
        _ => {
            let mut others = arguments.iter().skip(1);
            let option = others.find(|one| one.starts_with("--") && !options.contains(one));
            option.map(|option| ("option", *option, &options))
        }
    };
    match unknown {
        Some((what, word, known)) if !known.contains(&word) => {
            let meant = near(word, known.iter().copied());
            let meant = meant.map(|meant| format!("; did you mean `{meant}`?"));
            let meant = meant.unwrap_or_default();
            format!("there is no {what} `{word}`{meant}\n{usage}")
        }
        _ => usage.to_string(),
    }
}
