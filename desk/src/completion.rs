//! What bash completes after `sheet`.

use std::io::{self, Write};

use crate::command::Command;

/// The completion for bash.
pub fn bash(out: &mut dyn Write, commands: &[&Command]) -> io::Result<()> {
    let names: Vec<&str> = commands.iter().map(|command| command.name).collect();
    let names = names.join(" ");
    writeln!(out, "# bash completion for sheet")?;
    writeln!(out, "_sheet() {{")?;
    writeln!(out, "    local word=${{COMP_WORDS[COMP_CWORD]}} options=--help")?;
    writeln!(out, "    COMPREPLY=()")?;
    writeln!(out, "    if [ \"$COMP_CWORD\" -eq 1 ]; then")?;
    writeln!(out, "        options='help --help --version {names}'")?;
    writeln!(out, "    else")?;
    writeln!(out, "        case ${{COMP_WORDS[1]}} in")?;
    writeln!(out, "        help) options='{names}' ;;")?;
    writeln!(out, "        completion) options='bash --help' ;;")?;
    for command in commands {
        let flags = command.usage.flags.iter().map(|(flag, _)| *flag);
        let options = command.usage.options.iter().map(|(option, _, _)| *option);
        let all: Vec<&str> = flags.chain(options).collect();
        if !all.is_empty() {
            let (name, all) = (command.name, all.join(" "));
            writeln!(out, "        {name}) options='--help {all}' ;;")?;
        }
    }
    writeln!(out, "        esac")?;
    writeln!(out, "    fi")?;
    writeln!(out, "    if [[ $word == -* ]] || [ \"$COMP_CWORD\" -eq 1 ] ||")?;
    writeln!(
        out,
        "        [[ ${{COMP_WORDS[1]}} == help || ${{COMP_WORDS[1]}} == completion ]]; then"
    )?;
    writeln!(out, "        mapfile -t COMPREPLY < <(compgen -W \"$options\" -- \"$word\")")?;
    writeln!(out, "    else")?;
    writeln!(out, "        mapfile -t COMPREPLY < <(compgen -f -- \"$word\")")?;
    writeln!(out, "    fi")?;
    writeln!(out, "}}")?;
    writeln!(out, "complete -o filenames -F _sheet sheet")?;
    Ok(())
}
