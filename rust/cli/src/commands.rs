//! The table: every command, in the order in which help names them. A new one is a line here.

use crate::table::{Command, DEFAULT};
use crate::{
    archive, completions, diff, follow, help, inspect, limit, man, maps, report, salvage, show,
    unpack,
};

pub const ALL: &[Command] = &[
    maps::COMMAND,
    show::COMMAND,
    diff::COMMAND,
    report::COMMAND,
    limit::COMMAND,
    archive::COMMAND,
    salvage::COMMAND,
    unpack::COMMAND,
    follow::COMMAND,
    inspect::COMMAND,
    completions::COMMAND,
    man::COMMAND,
    help::COMMAND,
];

/// The command of this name.
pub fn named(name: &str) -> Option<&'static Command> {
    ALL.iter().find(|command| command.name == name)
}

/// The command that is meant where none is named.
pub fn default() -> &'static Command {
    named(DEFAULT).unwrap_or(&ALL[0])
}

#[cfg(test)]
mod tests {
    use std::collections::HashSet;

    use super::ALL;
    use crate::table::{Command, Times};

    fn sound(command: &Command) {
        let name = command.name;
        let mut options = HashSet::new();
        for option in command.options() {
            assert!(option.name.starts_with("--"), "{name}: {}", option.name);
            assert!(options.insert(option.name), "{name}: {} twice", option.name);
            assert!(!option.says.ends_with('.'), "{name}: {}", option.name);
        }
        if let Some((_, before)) = command.operands.split_last() {
            let once = before.iter().all(|operand| operand.times == Times::Once);
            assert!(once, "{name}: only the last operand may stand otherwise");
        }
        assert!(!command.says.ends_with('.'), "{name}: {}", command.says);
        assert!(command.exits.is_sorted_by_key(|(number, _)| number));
    }

    #[test]
    fn the_table_is_sound() {
        ALL.iter().for_each(sound);
        let names: HashSet<&str> = ALL.iter().map(|command| command.name).collect();
        assert_eq!(names.len(), ALL.len());
    }
}
