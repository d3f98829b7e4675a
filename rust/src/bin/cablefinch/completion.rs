//! Completion for bash, from the table of words.

use crate::arguments::Arguments;
use crate::screen::Screen;
use crate::words::{Choice, HELP, Operand, VERSION, WORDS};
use crate::{Stop, Verdict};
use std::fmt::Write as _;

/// The shells that there is completion for.
pub const SHELLS: &[&str] = &["bash"];

/// `cablefinch completion SHELL`.
pub fn run(arguments: &Arguments, screen: &mut Screen) -> Result<Verdict, Stop> {
    let shell = arguments.text(0);
    if !SHELLS.contains(&&*shell) {
        let shells = SHELLS.join(", ");
        return Err(Stop::Usage(format!(
            "completion: there is none for {shell}: give one of {shells}"
        )));
    }
    screen.text().extend_from_slice(bash().as_bytes());
    Ok(Verdict::Right)
}

fn bash() -> String {
    let names: Vec<&str> = WORDS.iter().map(|word| word.name).collect();
    let mut cases = String::new();
    for word in WORDS {
        let own = word.options.iter().map(|choice| choice.name);
        let options: Vec<&str> = own.chain([HELP.name]).collect();
        let valued = word.options.iter().filter(|choice| choice.value.is_some());
        let valued: Vec<&str> = valued.map(|choice| choice.name).collect();
        let (files, others) = match word.kind {
            Operand::File => ("yes", String::new()),
            Operand::Text => ("", String::new()),
            Operand::OneOf(others) => ("", others.join(" ")),
            Operand::OneOfThenFile(others) => ("yes", others.join(" ")),
        };
        let _ = writeln!(
            cases,
            "    {}) options='{}' valued='{}' files='{files}' others='{others}' ;;",
            word.name,
            options.join(" "),
            valued.join(" "),
        );
    }
    let Choice { name: help, .. } = HELP;
    let Choice { name: version, .. } = VERSION;
    format!(
        "\
# Completion of cablefinch for bash, made by `cablefinch completion bash`.
_cablefinch() {{
    local current=${{COMP_WORDS[COMP_CWORD]}} options valued files others
    COMPREPLY=()
    if [ \"$COMP_CWORD\" -eq 1 ]; then
        mapfile -t COMPREPLY < <(compgen -W '{} {help} {version}' -- \"$current\")
        return
    fi
    case ${{COMP_WORDS[1]}} in
{cases}    *) return ;;
    esac
    case \" $valued \" in *\" ${{COMP_WORDS[COMP_CWORD - 1]}} \"*) return ;; esac
    case $current in
    -*) mapfile -t COMPREPLY < <(compgen -W \"$options\" -- \"$current\") ;;
    *)
        if [ -n \"$others\" ] && [ \"$COMP_CWORD\" -eq 2 ]; then
            mapfile -t COMPREPLY < <(compgen -W \"$others\" -- \"$current\")
        elif [ -n \"$files\" ]; then
            compopt -o filenames 2>/dev/null
            mapfile -t COMPREPLY < <(compgen -f -- \"$current\")
        fi
        ;;
    esac
}}
complete -F _cablefinch cablefinch
",
        names.join(" ")
    )
}
