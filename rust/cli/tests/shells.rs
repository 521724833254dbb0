//! Help, completions and the manual page are made of one table: each has every command and option.

mod common;

use std::collections::BTreeSet;
use std::fs;
use std::path::Path;
use std::process::Command;

use common::{all, folder, put, run};

/// The commands that the program's help names.
fn commands(help: &str) -> Vec<String> {
    let lines = help
        .lines()
        .filter_map(|line| line.strip_prefix("  aznifrem "));
    let name = |line: &str| {
        line.split(' ')
            .next()
            .map(|word| word.replace(['[', ']'], ""))
    };
    lines
        .map_while(name)
        .take_while(|name| name != "--to")
        .collect()
}

/// The options at the beginning of lines.
fn options(help: &str) -> BTreeSet<String> {
    let lines = help.lines().filter_map(|line| line.strip_prefix("  --"));
    let names = lines.filter_map(|line| line.split(' ').next());
    let names = names.filter(|name| !name.is_empty());
    names.map(|name| format!("--{name}")).collect()
}

fn printed(here: &Path, words: &[&str]) -> String {
    let (exit, out, said) = all(&run(here, words));
    assert_eq!((exit, said.as_str()), (0, ""), "{words:?}");
    out
}

#[test]
fn every_command_has_its_help_and_stands_in_the_page() {
    let here = folder("help");
    let names = commands(&printed(&here, &["--help"]));
    for name in ["map", "show", "diff", "completions", "man"] {
        assert!(names.contains(&name.into()), "{names:?}");
    }
    let page = printed(&here, &["man"]);
    for name in &names {
        let help = printed(&here, &[name, "--help"]);
        assert_eq!(help, printed(&here, &[name, "-h"]));
        assert_eq!(help, printed(&here, &["help", name]));
        assert!(
            help.lines().all(|line| line.chars().count() <= 80),
            "{help}"
        );
        assert!(help.contains("\nExit:\n  0  "), "{help}");
        assert!(page.contains(&format!("\n.SH AZNIFREM {}\n", name.to_uppercase())));
        for option in options(&help) {
            let typed = format!("\n.B {}", option.replace('-', "\\-"));
            assert!(page.contains(&typed), "{name} {option}");
        }
    }
}

/// What a shell offers for the last of these words.
fn offered(here: &Path, words: &[&str]) -> BTreeSet<String> {
    let quoted: Vec<String> = words.iter().map(|word| format!("'{word}'")).collect();
    let (last, words) = (words.len(), quoted.join(" "));
    let asked = format!(
        "source completions.bash; COMP_WORDS=(aznifrem {words}); COMP_CWORD={last}; _aznifrem; printf '%s\\n' \"${{COMPREPLY[@]}}\""
    );
    let mut bash = Command::new("bash");
    bash.args(["-uc", &asked]).current_dir(here);
    let (exit, out, said) = all(&bash.output().expect("bash is there"));
    assert_eq!((exit, said.as_str()), (0, ""), "{asked}");
    out.lines()
        .filter(|line| !line.is_empty())
        .map(String::from)
        .collect()
}

#[test]
fn bash_completes_commands_options_and_files() {
    let here = folder("bash");
    put(
        &here,
        "completions.bash",
        printed(&here, &["completions", "bash"]),
    );
    put(&here, "maps/a b.map", "");
    let set = |words: &[&str]| words.iter().map(|word| (*word).to_string()).collect();
    let names: BTreeSet<String> = commands(&printed(&here, &["--help"])).into_iter().collect();
    assert!(offered(&here, &[""]).is_superset(&names));
    assert_eq!(
        offered(&here, &["comp"]),
        set(&["completions", "completions.bash"])
    );
    for name in &names {
        let known = options(&printed(&here, &[name, "--help"]));
        assert_eq!(offered(&here, &[name, "--"]), known, "{name}");
    }
    assert_eq!(offered(&here, &["--li"]), set(&["--limit", "--lines"]));
    assert_eq!(offered(&here, &["--to", "m"]), set(&["maps"]));
    assert_eq!(offered(&here, &["--limit", ""]), set(&[]));
    assert_eq!(
        offered(&here, &["completions", ""]),
        set(&["bash", "fish", "zsh"])
    );
    assert_eq!(offered(&here, &["diff", "maps/"]), set(&["maps/a b.map"]));
}

/// The other shells read theirs without a fault, where they are installed.
#[test]
fn other_shells_take_theirs() {
    let here = folder("shells");
    for shell in ["zsh", "fish", "bash"] {
        let file = format!("completions.{shell}");
        put(&here, &file, printed(&here, &["completions", shell]));
        let mut command = Command::new(shell);
        let output = command.args(["-n", &file]).current_dir(&here).output();
        if let Ok(output) = output {
            assert_eq!(all(&output), (0, String::new(), String::new()), "{shell}");
        }
        let text = fs::read_to_string(here.join(&file)).expect("it is written");
        for option in options(&printed(&here, &["--help"])) {
            let name = if shell == "fish" {
                format!("-l {} ", option.trim_start_matches('-'))
            } else {
                option
            };
            assert!(text.contains(&name), "{shell} {name}");
        }
    }
}

/// Where there is a man, it takes the page without a warning.
#[test]
fn man_takes_the_page() {
    let here = folder("man");
    put(&here, "aznifrem.1", printed(&here, &["man"]));
    let mut man = Command::new("man");
    man.args(["--warnings", "-l", "aznifrem.1"])
        .current_dir(&here);
    man.env("MANWIDTH", "80")
        .env("LC_ALL", "C.UTF-8")
        .env("MANPAGER", "cat");
    if let Ok(output) = man.output() {
        let (exit, out, said) = all(&output);
        assert_eq!((exit, said.as_str()), (0, ""));
        assert!(
            out.contains("aznifrem - control-flow maps of EVM contracts"),
            "{out}"
        );
        assert!(
            out.contains("--jobs N") && out.contains("AZNIFREM DIFF"),
            "{out}"
        );
    }
}

#[test]
fn every_command_gives_the_version() {
    let here = folder("version");
    let version = format!("aznifrem {}\n", env!("CARGO_PKG_VERSION"));
    for words in [
        &["--version"][..],
        &["-V"],
        &["diff", "--version"],
        &["man", "-V"],
    ] {
        assert_eq!(printed(&here, words), version);
    }
}

#[test]
fn a_shell_that_is_none_is_shown_escaped() {
    let here = folder("no-shell");
    let (exit, _, said) = all(&run(&here, &["completions", "a\x1b[2J"]));
    let sentence = "aznifrem: completions takes one of bash, zsh and fish, not 'a\\x1b[2J'\n";
    assert_eq!((exit, said.starts_with(sentence)), (2, true), "{said}");
}
