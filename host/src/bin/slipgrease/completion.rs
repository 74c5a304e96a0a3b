//! What a shell needs to complete commands and options, made of the commands and their help.

use crate::fault::Fault;
use crate::help;
use crate::shown::brief;
use crate::words::Words;
use crate::COMMANDS;
use std::io::Write;

/// What stands before the words of each command, and behind them. Where no word is offered, bash offers files by default.
const BEFORE: &str = r#"# How bash completes the words of slipgrease; slipgrease completion bash prints it.
_slipgrease() {
    local word=${COMP_WORDS[COMP_CWORD]} last=${COMP_WORDS[COMP_CWORD-1]} options= files= values= words= arguments= n
    # An = that joins an option and its value is a word by itself.
    [[ $last == '=' ]] && last=${COMP_WORDS[COMP_CWORD-2]}
    case $COMP_CWORD:${COMP_WORDS[1]} in
"#;
const BEHIND: &str = r#"    esac
    for ((n = 2; n < COMP_CWORD; n++)); do
        if [[ ${COMP_WORDS[n]} == -- ]]; then
            options= files= values=
        elif [[ " $words " == *" ${COMP_WORDS[n]} "* ]]; then
            words=
        fi
    done
    COMPREPLY=()
    if [[ " $files " == *" $last "* ]]; then
        return
    elif [[ " $values " == *" $last "* ]]; then
        # Not a file either.
        compopt +o default 2>/dev/null
        return
    elif [[ $word == -* || -z $words$arguments ]]; then
        words=$options
    fi
    COMPREPLY=($(compgen -W "$words" -- "$word"))
}
complete -o default -F _slipgrease slipgrease
"#;

pub fn completion(words: &mut Words, out: &mut dyn Write) -> Result<(), Fault> {
    let (shell, _) = words.word("shell")?;
    words.end()?;
    if shell != "bash" {
        return Err(Fault::caller(format!("completion {}: bash is expected", brief(shell))));
    }
    let names: Vec<&str> = COMMANDS.iter().map(|(name, _)| *name).collect();
    let names = names.join(" ");
    write!(out, "{BEFORE}")?;
    writeln!(out, "    1:*) words='{names} help' options='--help --version' ;;")?;
    writeln!(out, "    2:help) words='{names}' ;;")?;
    for (name, _) in COMMANDS {
        let of = |is_file: bool| {
            let options = help::values(name).into_iter().filter(move |(_, value)| (*value == "FILE") == is_file);
            options.map(|(option, _)| option).collect()
        };
        let sets =
            [("options", help::options(name)), ("files", of(true)), ("values", of(false)), ("words", help::literals(name))];
        write!(out, "    *:{name})")?;
        for (set, its) in sets.iter().filter(|(_, its)| !its.is_empty()) {
            write!(out, " {set}='{}'", its.join(" "))?;
        }
        writeln!(out, "{} ;;", if help::takes_files(name) { " arguments=files" } else { "" })?;
    }
    write!(out, "{BEHIND}")?;
    Ok(())
}
