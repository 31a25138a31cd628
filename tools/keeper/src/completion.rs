//! Completion for shells, made of the table of subcommands.

use crate::sets;
use crate::usage::{Opt, Subcommand, Takes, Times, EXCLUDING, HELP, OWN_OPTIONS, SUBCOMMANDS};

/// The shells, as `keeper completion` names them.
pub const SHELLS: &[&str] = &["bash", "zsh"];

fn subcommand_names() -> Vec<&'static str> {
    SUBCOMMANDS.iter().map(|row| row.name).collect()
}

/// The names of all options, `--help` among them.
fn option_names(subcommand: &Subcommand) -> Vec<&'static str> {
    let options = subcommand.options.iter().copied().chain([&HELP]);
    options.flat_map(|option| option.names).copied().collect()
}

/// How bash completes what is taken: a function of the script and its words.
fn in_bash(takes: Takes) -> String {
    match takes {
        Takes::File => "_keeper_files".to_string(),
        Takes::NumbersOr(words) | Takes::OneOf(words) => {
            format!("_keeper_words '{}'", words.join(" "))
        }
        Takes::Set => format!("_keeper_words '{}'", sets::WORDS.join(" ")),
        Takes::Subcommand => format!("_keeper_words '{}'", subcommand_names().join(" ")),
        Takes::Nothing
        | Takes::Text
        | Takes::Number
        | Takes::Numbers
        | Takes::Ceilings
        | Takes::Checkpoint
        | Takes::Checkpoints
        | Takes::Item => ":".to_string(),
    }
}

/// What the arguments and FILE take in bash: numbers can't be completed, so
/// that FILE is offered behind them from the first on.
fn arguments_in_bash(subcommand: &Subcommand) -> String {
    let named = subcommand.arguments.iter().map(|one| in_bash(one.takes));
    let mut offered: Vec<String> = named.filter(|offer| offer != ":").collect();
    if subcommand.file {
        offered.push(in_bash(Takes::File));
    }
    offered.dedup();
    match offered.is_empty() {
        true => ":".to_string(),
        false => offered.join("; "),
    }
}

pub fn bash() -> String {
    let mut values = String::new();
    let mut options = String::new();
    let mut arguments = String::new();
    for row in SUBCOMMANDS {
        for option in row.options.iter().filter(|one| one.takes != Takes::Nothing) {
            let names: Vec<String> = option
                .names
                .iter()
                .map(|name| format!("{}:{name}", row.name))
                .collect();
            values += &format!(
                "    {}) {}; return ;;\n",
                names.join(" | "),
                in_bash(option.takes)
            );
        }
        options += &format!(
            "        {}) _keeper_words '{}' ;;\n",
            row.name,
            option_names(row).join(" ")
        );
        arguments += &format!("    {}) {} ;;\n", row.name, arguments_in_bash(row));
    }
    let first: Vec<&str> = subcommand_names()
        .into_iter()
        .chain(OWN_OPTIONS.iter().flat_map(|option| option.names).copied())
        .collect();
    BASH.replace("@FIRST@", &first.join(" "))
        .replace("@VALUES@\n", &values)
        .replace("@OPTIONS@\n", &options)
        .replace("@ARGUMENTS@\n", &arguments)
}

const BASH: &str = r#"# Completion of keeper for bash, as `keeper completion bash` writes it.

_keeper_words() {
    local IFS=' ' word
    for word in $1; do
        [[ $word == "$current"* ]] && COMPREPLY+=("$word")
    done
}

_keeper_files() {
    local file
    compopt -o filenames 2>/dev/null
    while IFS= read -r file; do
        COMPREPLY+=("$file")
    done < <(compgen -f -- "$current")
}

_keeper() {
    local current=${COMP_WORDS[COMP_CWORD]} option
    COMPREPLY=()
    if ((COMP_CWORD == 1)); then
        _keeper_words '@FIRST@'
        return
    fi
    # bash takes --hold=1 apart at the sign.
    option=${COMP_WORDS[COMP_CWORD - 1]}
    if [[ $current == = ]]; then
        current=
    elif [[ $option == = ]]; then
        option=${COMP_WORDS[COMP_CWORD - 2]}
    fi
    case ${COMP_WORDS[1]}:$option in
@VALUES@
    esac
    if [[ $current == -* ]]; then
        case ${COMP_WORDS[1]} in
@OPTIONS@
        esac
        return
    fi
    case ${COMP_WORDS[1]} in
@ARGUMENTS@
    esac
}

complete -F _keeper keeper
"#;

/// What zsh's `_arguments` does to complete what is taken.
fn in_zsh(takes: Takes) -> String {
    match takes {
        Takes::File => "_files".to_string(),
        Takes::NumbersOr(words) | Takes::OneOf(words) => format!("({})", words.join(" ")),
        Takes::Set => format!("({})", sets::WORDS.join(" ")),
        Takes::Subcommand => format!("({})", subcommand_names().join(" ")),
        Takes::Nothing
        | Takes::Text
        | Takes::Number
        | Takes::Numbers
        | Takes::Ceilings
        | Takes::Checkpoint
        | Takes::Checkpoints
        | Takes::Item => " ".to_string(),
    }
}

/// Words within quotes of the shell and signs that `_arguments` reads.
fn quoted(words: &str) -> String {
    let mut quoted = String::new();
    for sign in words.chars() {
        match sign {
            '\'' => quoted += "'\\''",
            '[' | ']' | ':' | '\\' => {
                quoted.push('\\');
                quoted.push(sign);
            }
            _ => quoted.push(sign),
        }
    }
    quoted
}

/// Those of a row's options beside which an option does not stand.
fn excluded(option: &Opt, options: &[&Opt]) -> Vec<&'static str> {
    let pairs = EXCLUDING.iter();
    pairs
        .flat_map(|(one, other)| [(one, *other), (other, *one)])
        .filter(|(own, _)| option.names.contains(own))
        .map(|(_, other)| other)
        .filter(|other| options.iter().any(|option| option.names.contains(other)))
        .collect()
}

/// The options of a row as `_arguments` takes them.
fn options_in_zsh<'a>(options: impl Iterator<Item = &'a Opt>, alone: bool) -> Vec<String> {
    let options: Vec<&Opt> = options.collect();
    let mut specs = Vec::new();
    for option in &options {
        // Names of one option exclude each other; help excludes all else.
        let others = match alone || option.names[0] == "--help" {
            true => "- *".to_string(),
            false => [option.names, &excluded(option, &options)]
                .concat()
                .join(" "),
        };
        for name in option.names {
            let (sign, value) = match option.takes {
                Takes::Nothing => ("", String::new()),
                _ => (
                    if name.starts_with("--") { "=" } else { "+" },
                    format!(":{}:{}", option.value, in_zsh(option.takes)),
                ),
            };
            specs.push(format!(
                "'({others}){name}{sign}[{}]{value}'",
                quoted(option.words)
            ));
        }
    }
    specs
}

fn arguments_in_zsh(subcommand: &Subcommand) -> Vec<String> {
    let mut specs = Vec::new();
    for (place, argument) in subcommand.arguments.iter().enumerate() {
        specs.push(match argument.times {
            Times::Once => format!(
                "'{}:{}:{}'",
                place + 1,
                argument.name,
                in_zsh(argument.takes)
            ),
            Times::AtMostOnce => format!(
                "'{}::{}:{}'",
                place + 1,
                argument.name,
                in_zsh(argument.takes)
            ),
            // FILE may stand at any place behind.
            Times::Any => {
                return [specs, vec![format!("'*:{} or FILE:_files'", argument.name)]].concat()
            }
        });
    }
    if subcommand.file {
        specs.push(format!("'{}::FILE:_files'", specs.len() + 1));
    }
    specs
}

pub fn zsh() -> String {
    let described: Vec<String> = SUBCOMMANDS
        .iter()
        .map(|row| format!("        '{}:{}'\n", row.name, quoted(row.short)))
        .collect();
    let own = options_in_zsh(OWN_OPTIONS.iter().copied(), true);
    let mut cases = String::new();
    for row in SUBCOMMANDS {
        let options = row.options.iter().copied().chain([&HELP]);
        let specs = [options_in_zsh(options, false), arguments_in_zsh(row)].concat();
        cases += &format!(
            "        {})\n            _arguments -s \\\n                {}\n            ;;\n",
            row.name,
            specs.join(" \\\n                ")
        );
    }
    ZSH.replace("@SUBCOMMANDS@\n", &described.concat())
        .replace("@OWN@", &own.join(" \\\n        "))
        .replace("@CASES@\n", &cases)
}

const ZSH: &str = r#"#compdef keeper
# Completion of keeper for zsh, as `keeper completion zsh` writes it.

_keeper() {
    local curcontext="$curcontext" state state_descr line ret=1
    local -a subcommands
    local -A opt_args
    subcommands=(
@SUBCOMMANDS@
    )
    _arguments -C \
        @OWN@ \
        '1:subcommand:->subcommand' \
        '*::argument:->arguments' && ret=0
    case $state in
    subcommand)
        _describe -t subcommands subcommand subcommands && ret=0
        ;;
    arguments)
        case $line[1] in
@CASES@
        esac
        ret=$?
        ;;
    esac
    return ret
}

# Autoloaded as a file of that name, or read by source.
if [[ $funcstack[1] == _keeper ]]; then
    _keeper "$@"
else
    compdef _keeper keeper
fi
"#;
