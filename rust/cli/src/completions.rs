//! `aznifrem completions SHELL`: what a shell offers as one types, of the table.

use std::fmt::Write as _;
use std::io::Write;

use crate::commands;
use crate::given::Given;
use crate::names::shown;
use crate::outcome::Outcome;
use crate::table::{Command, DEFAULT, Of, Operand, Opt, Stop, Times};

pub const COMMAND: Command = Command {
    name: "completions",
    says: "What a shell needs to complete commands and options",
    operands: &[Operand {
        name: "SHELL",
        of: Of::Among(SHELLS),
        times: Times::Once,
    }],
    takes: "completions takes one of bash, zsh and fish",
    groups: &[],
    notes: &[],
    exits: &[(0, "it is printed")],
    examples: &[
        ("For this bash", "source <(aznifrem completions bash)"),
        (
            "For every zsh whose fpath has this folder",
            "aznifrem completions zsh > ~/.zfunc/_aznifrem",
        ),
        (
            "For every fish",
            "aznifrem completions fish > ~/.config/fish/completions/aznifrem.fish",
        ),
    ],
    run,
};

const SHELLS: &[&str] = &["bash", "zsh", "fish"];

fn run(given: &Given, out: &mut dyn Write) -> Result<Outcome, Stop> {
    let shell = &given.operands[0];
    let text = match shell.to_str() {
        Some("bash") => bash(),
        Some("zsh") => zsh(),
        Some("fish") => fish(),
        _ => {
            let wrong = format!("{}, not '{}'", COMMAND.takes, shown(shell));
            return Err(Stop::Asked(wrong));
        }
    };
    out.write_all(text.as_bytes())?;
    Ok(Outcome::Fine)
}

/// The words that may stand first.
fn names() -> String {
    let names: Vec<&str> = commands::ALL.iter().map(|command| command.name).collect();
    names.join(" ")
}

/// The first part of a sentence: a shell has one line for it.
fn brief(says: &str) -> &str {
    says.split("; ").next().unwrap_or(says)
}

/// What the operands of a command are completed as.
fn operands(command: &Command) -> Of {
    command
        .operands
        .first()
        .map_or(Of::Word, |operand| operand.of)
}

fn bash() -> String {
    let mut text = String::from(
        "_aznifrem() {\n    local cur=${COMP_WORDS[COMP_CWORD]} prev=${COMP_WORDS[COMP_CWORD-1]}\n    \
         COMPREPLY=()\n    case ${COMP_WORDS[1]} in\n",
    );
    let others = commands::ALL
        .iter()
        .filter(|command| command.name != DEFAULT);
    for command in others {
        bash_command(&mut text, command.name, command);
    }
    bash_command(&mut text, "*", commands::default());
    let names = names();
    let _ = write!(
        text,
        "    esac\n    if [ \"$COMP_CWORD\" = 1 ]; then\n        \
         mapfile -t -O ${{#COMPREPLY[@]}} COMPREPLY < <(compgen -W '{names}' -- \"$cur\")\n    fi\n}}\n\
         complete -o filenames -F _aznifrem aznifrem\n"
    );
    text
}

fn bash_command(text: &mut String, pattern: &str, command: &Command) {
    let _ = writeln!(text, "    {pattern})\n        case $prev in");
    for option in command.options() {
        if let Some(value) = &option.value {
            let reply = bash_of(value.of);
            let _ = writeln!(text, "        {}) {reply}; return ;;", option.name);
        }
    }
    let options: Vec<&str> = command.options().map(|option| option.name).collect();
    let _ = writeln!(
        text,
        "        esac\n        case $cur in\n        -*) mapfile -t COMPREPLY < <(compgen -W '{}' -- \"$cur\") ;;\n        \
         *) {} ;;\n        esac ;;",
        options.join(" "),
        bash_of(operands(command))
    );
}

fn bash_of(of: Of) -> String {
    let what = match of {
        Of::Word => return "COMPREPLY=()".into(),
        Of::Path => "-f".into(),
        Of::Folder => "-d".into(),
        Of::Among(words) => format!("-W '{}'", words.join(" ")),
    };
    // A line for each: names may have spaces.
    format!("mapfile -t COMPREPLY < <(compgen {what} -- \"$cur\")")
}

fn zsh() -> String {
    let mut text =
        String::from("#compdef aznifrem\n_aznifrem() {\n    local -a commands\n    commands=(\n");
    for command in commands::ALL {
        let says = zsh_word(command.says);
        let _ = writeln!(text, "        '{}:{says}'", command.name);
    }
    text.push_str(
        "    )\n    (( CURRENT == 2 )) && _describe -t commands command commands\n    case $words[2] in\n",
    );
    for command in commands::ALL.iter().filter(|one| one.name != DEFAULT) {
        let name = command.name;
        let _ = writeln!(text, "    {name}) shift words; (( CURRENT-- ))");
        zsh_command(&mut text, command);
    }
    let name = DEFAULT;
    let _ = writeln!(
        text,
        "    *) [[ $words[2] == {name} ]] && {{ shift words; (( CURRENT-- )) }}"
    );
    zsh_command(&mut text, commands::default());
    text.push_str("    esac\n}\n[[ $funcstack[1] == _aznifrem ]] && _aznifrem \"$@\" || compdef _aznifrem aznifrem\n");
    text
}

fn zsh_command(text: &mut String, command: &Command) {
    text.push_str("        _arguments");
    for Opt { name, value, says } in command.options() {
        let says = zsh_word(says);
        let _ = match value {
            Some(value) => {
                let (told, of) = (value.name, zsh_of(value.of));
                write!(text, " \\\n            '*{name}=[{says}]:{told}:{of}'")
            }
            None => write!(text, " \\\n            '{name}[{says}]'"),
        };
    }
    for Operand { name, of, times } in command.operands {
        let of = zsh_of(*of);
        let many = if *times == Times::OnceOrMore { "*" } else { "" };
        let _ = write!(text, " \\\n            '{many}:{name}:{of}'");
    }
    text.push_str(" ;;\n");
}

fn zsh_of(of: Of) -> String {
    match of {
        Of::Word => " ".into(),
        Of::Path => "_files".into(),
        Of::Folder => "_files -/".into(),
        Of::Among(words) => format!("({})", words.join(" ")),
    }
}

/// A sentence within quotes and brackets of zsh.
fn zsh_word(says: &str) -> String {
    let mut word = brief(says).replace('\'', "'\\''");
    for sign in ['[', ']', ':'] {
        word = word.replace(sign, &format!("\\{sign}"));
    }
    word
}

fn fish() -> String {
    let names = names();
    let mut text = String::new();
    for command in commands::ALL {
        let (name, says) = (command.name, fish_word(command.says));
        let _ = writeln!(
            text,
            "complete -c aznifrem -n 'not __fish_seen_subcommand_from {names}' -a {name} -d '{says}'"
        );
    }
    for command in commands::ALL {
        let seen = if command.name == DEFAULT {
            let others = commands::ALL.iter().map(|one| one.name);
            let others: Vec<&str> = others.filter(|name| *name != DEFAULT).collect();
            format!("not __fish_seen_subcommand_from {}", others.join(" "))
        } else {
            format!("__fish_seen_subcommand_from {}", command.name)
        };
        fish_command(&mut text, &seen, command);
    }
    text
}

fn fish_command(text: &mut String, seen: &str, command: &Command) {
    for Opt { name, value, says } in command.options() {
        let (long, says) = (name.trim_start_matches('-'), fish_word(says));
        let of = match value {
            Some(value) => format!(" -x{}", fish_of(value.of)),
            None => String::new(),
        };
        let _ = writeln!(
            text,
            "complete -c aznifrem -n '{seen}' -l {long}{of} -d '{says}'"
        );
    }
    let of = match operands(command) {
        Of::Path => " -F".into(),
        of => format!(" -f{}", fish_of(of)),
    };
    let _ = writeln!(text, "complete -c aznifrem -n '{seen}'{of}");
}

fn fish_of(of: Of) -> String {
    match of {
        Of::Word => String::new(),
        Of::Path => " -a '(__fish_complete_path)'".into(),
        Of::Folder => " -a '(__fish_complete_directories)'".into(),
        Of::Among(words) => format!(" -a '{}'", words.join(" ")),
    }
}

fn fish_word(says: &str) -> String {
    brief(says).replace('\\', "\\\\").replace('\'', "\\'")
}
