//! The manual page's commands and the shells' completions, from the table of
//! the commands. The files in share/ are held against it here, and written
//! anew by `cargo test --bin shelf pages_are_written -- --ignored`.

use crate::arguments::{Choice, Verb, ALWAYS, VERBS};
use std::fs;
use std::path::PathBuf;

const MADE: &str = "made from the table of the commands";
const BEGIN: &str = ".\\\" The commands, made from their own table\n";
const END: &str = ".\\\" The end of the commands\n";

fn path(name: &str) -> PathBuf {
    PathBuf::from(concat!(env!("CARGO_MANIFEST_DIR"), "/../share")).join(name)
}

fn choices(verb: &Verb) -> impl Iterator<Item = &Choice> {
    verb.choices.iter().chain(&ALWAYS)
}

/// The names that every command may be followed by.
fn words(verb: &Verb) -> String {
    let words: Vec<&str> = choices(verb).map(|choice| choice.name).collect();
    words.join(" ")
}

fn verbs() -> String {
    VERBS.map(|verb| verb.name).join(" ")
}

/// Text in a manual page: a dash that is a dash.
fn plain(text: &str) -> String {
    text.replace('\\', "\\e").replace('-', "\\-")
}

fn manual_commands() -> String {
    let mut text = String::from(BEGIN);
    for verb in &VERBS {
        let [name, operands] = [verb.name, verb.operands].map(plain);
        text += &format!(".SS shelf {name} \\fI{operands}\\fR\n");
        text += &format!("{}.\n", plain(&capital(verb.what)));
        text += &plain(verb.more);
        for choice in verb.choices {
            let value = choice
                .value
                .map_or(String::new(), |value| format!(" \\fI{value}\\fR"));
            let [name, what] = [choice.name, choice.what].map(plain);
            text += &format!(".TP\n\\fB{name}\\fR{value}\n{}.\n", capital(&what));
        }
    }
    text += ".SS Every command\n";
    for choice in &ALWAYS {
        let [name, what] = [choice.name, choice.what].map(plain);
        text += &format!(".TP\n\\fB{name}\\fR\n{}.\n", capital(&what));
    }
    text + END
}

fn capital(text: &str) -> String {
    let mut characters = text.chars();
    let first = characters.next().map(|first| first.to_ascii_uppercase());
    first.into_iter().chain(characters).collect()
}

fn bash() -> String {
    let mut cases = String::new();
    for verb in &VERBS {
        cases += &format!("        {}) words='{}' ;;\n", verb.name, words(verb));
    }
    let with_value = values().join("|");
    let always = ALWAYS.map(|choice| choice.name).join(" ");
    format!(
        "# bash completion for shelf, {MADE}\n\
         _shelf() {{\n    \
             local word=${{COMP_WORDS[COMP_CWORD]}} before=${{COMP_WORDS[COMP_CWORD - 1]}} words=\n    \
             COMPREPLY=()\n    \
             if [ \"$COMP_CWORD\" -eq 1 ]; then\n        \
                 words='{} {always}'\n    \
             elif [ \"$before\" = help ]; then\n        \
                 words='{}'\n    \
             elif [[ $word == -* && $before != @({with_value}) ]]; then\n        \
                 case ${{COMP_WORDS[1]}} in\n{}        \
                 esac\n    \
             fi\n    \
             # Where there are no words, files are offered.\n    \
             [ -z \"$words\" ] || mapfile -t COMPREPLY < <(compgen -W \"$words\" -- \"$word\")\n\
         }}\n\
         complete -o default -F _shelf shelf\n",
        verbs(),
        verbs(),
        cases.replace("        ", "            ")
    )
}

/// The options that a file follows.
fn values() -> Vec<&'static str> {
    let all = VERBS.iter().flat_map(|verb| verb.choices);
    let with_value = all.filter(|choice| choice.value.is_some());
    with_value.map(|choice| choice.name).collect()
}

/// A word of zsh: in quotes, with what would end a part of it escaped.
fn zsh_word(text: &str) -> String {
    let mut escaped = text.replace('\'', "'\\''");
    for mark in ['[', ']', ':'] {
        escaped = escaped.replace(mark, &format!("\\{mark}"));
    }
    escaped
}

fn zsh() -> String {
    let mut text = format!("#compdef shelf\n# zsh completion for shelf, {MADE}\n");
    text += "local -a verbs\nverbs=(\n";
    for verb in &VERBS {
        text += &format!("    '{}:{}'\n", verb.name, zsh_word(verb.what));
    }
    text += ")\nif (( CURRENT == 2 )); then\n    _describe command verbs\n    return\nfi\n";
    text += "local verb=$words[2]\nshift words\n(( CURRENT-- ))\ncase $verb in\n";
    for verb in &VERBS {
        text += &format!("    {})\n        _arguments \\\n", verb.name);
        for choice in choices(verb) {
            let value = choice.value.map_or("", |_| ":file:_files");
            let what = zsh_word(choice.what);
            text += &format!("            '{}[{what}]{value}' \\\n", choice.name);
        }
        let operands = match verb.name {
            "help" => format!("'1:command:({})'", verbs()),
            _ => "'*:file:_files'".to_string(),
        };
        text += &format!("            {operands}\n        ;;\n");
    }
    text + "esac\n"
}

fn fish() -> String {
    let quoted = |text: &str| format!("'{}'", text.replace('\'', "\\'"));
    let option = |choice: &Choice| {
        let name = match choice.name.strip_prefix("--") {
            Some(long) => format!("-l {long}"),
            None => format!("-s {}", &choice.name[1..]),
        };
        let value = choice.value.map_or("", |_| " -r -F");
        format!("{name}{value} -d {}", quoted(choice.what))
    };
    let mut text = format!("# fish completion for shelf, {MADE}\n");
    let first = "complete -c shelf -n __fish_use_subcommand";
    for verb in &VERBS {
        text += &format!("{first} -f -a {} -d {}\n", verb.name, quoted(verb.what));
    }
    for choice in &ALWAYS {
        text += &format!("complete -c shelf {}\n", option(choice));
    }
    for verb in &VERBS {
        let seen = format!(
            "complete -c shelf -n '__fish_seen_subcommand_from {}'",
            verb.name
        );
        for choice in verb.choices {
            text += &format!("{seen} {}\n", option(choice));
        }
    }
    text + &format!(
        "complete -c shelf -n '__fish_seen_subcommand_from help' -f -a '{}'\n",
        verbs()
    )
}

/// The manual page with its commands as they are in the table.
fn manual() -> String {
    let page = fs::read_to_string(path("shelf.1")).unwrap();
    let (before, rest) = page.split_once(BEGIN).unwrap();
    let (_, after) = rest.split_once(END).unwrap();
    [before, &manual_commands(), after].concat()
}

fn pages() -> [(&'static str, String); 4] {
    [
        ("shelf.1", manual()),
        ("shelf.bash", bash()),
        ("_shelf", zsh()),
        ("shelf.fish", fish()),
    ]
}

#[test]
fn pages_are_true() {
    for (name, text) in pages() {
        let stored = fs::read_to_string(path(name)).unwrap_or_default();
        assert!(stored == text, "share/{name} is not what the table says");
    }
}

#[test]
#[ignore = "writes the files"]
fn pages_are_written() {
    for (name, text) in pages() {
        fs::write(path(name), text).unwrap();
    }
}
