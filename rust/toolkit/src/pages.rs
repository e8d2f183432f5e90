// SPDX-License-Identifier: MIT
//! Help, manual page and completions, made from what a tool offers.

use crate::fault::Fault;
use crate::spec::{Spec, Takes, Tool};
use crate::words::About;
use std::fmt::Write;

const WIDTH: usize = 80;

/// What is asked about a tool.
pub fn about(tool: &Tool, about: &About) -> Result<String, Fault> {
    match about {
        About::Version => Ok(format!("{} {}\n", tool.name, tool.version)),
        About::Help(None) => Ok(help(tool)),
        About::Help(Some(name)) => match tool.command(name) {
            Some(spec) => Ok(help_of(tool, spec)),
            None => Ok(help(tool)),
        },
        About::Page(page) if page == "man" => Ok(manual(tool)),
        About::Page(page) => completions(tool, page)
            .ok_or_else(|| Fault::usage("the pages are man, bash, zsh and fish")),
    }
}

/// The help of all commands.
fn help(tool: &Tool) -> String {
    let mut page = format!("{}: {}.\n\n", tool.name, tool.summary);
    page += &laid_out(tool.intro, 0);
    for spec in tool.commands {
        page.push('\n');
        for form in spec.forms {
            page += &usage(&format!("  {} {}", tool.name, spec.name), form);
        }
        page += &laid_out(spec.text, 6);
    }
    for (title, text) in tool.sections {
        write!(page, "\n{title}\n{}", laid_out(text, 2)).expect("a string takes all");
    }
    page
}

/// The help of one command.
fn help_of(tool: &Tool, spec: &Spec) -> String {
    let name = tool.name;
    let mut page = String::new();
    for (at, form) in spec.forms.iter().enumerate() {
        let word = if at == 0 { "usage:" } else { "   or:" };
        page += &usage(&format!("{word} {name} {}", spec.name), form);
    }
    page.push('\n');
    page += &laid_out(spec.text, 0);
    page += &format!("\n`{name} --help` has every command and the exit statuses.\n");
    page
}

/// A form of a command, its options below each other where they do not fit.
fn usage(start: &str, form: &str) -> String {
    let indent = " ".repeat(start.len().min(14));
    let mut page = String::new();
    let mut line = start.to_string();
    for part in parts(form) {
        if line.len() + 1 + part.len() > WIDTH {
            page += &line;
            page.push('\n');
            line = indent.clone();
        }
        line = line + " " + &part;
    }
    page + &line + "\n"
}

/// What stands together: an option with its value, or what is in brackets.
fn parts(form: &str) -> Vec<String> {
    let mut parts: Vec<String> = vec![];
    let mut open = false;
    for word in form.split(' ').filter(|word| !word.is_empty()) {
        let follows = parts.last().is_some_and(|last| {
            let option = last.starts_with("--") && !last.contains(' ');
            open || option && !word.starts_with(['-', '['])
        });
        match follows {
            true => {
                let last = parts.last_mut().expect("there is one");
                *last += " ";
                *last += word;
            }
            false => parts.push(word.into()),
        }
        open = (open || word.starts_with('[')) && !word.ends_with(']');
    }
    parts
}

/// Paragraphs, wrapped behind an indent. Lines that begin with a space stay.
fn laid_out(text: &str, indent: usize) -> String {
    let space = " ".repeat(indent);
    let mut page = String::new();
    for line in text.lines() {
        if line.is_empty() || line.starts_with(' ') {
            page += format!("{space}{line}").trim_end();
            page.push('\n');
            continue;
        }
        let mut row = space.clone();
        for word in line.split(' ') {
            if row.len() + 1 + word.chars().count() > WIDTH && row.len() > indent {
                page += &row;
                page.push('\n');
                row = space.clone();
            }
            if row.len() > indent {
                row.push(' ');
            }
            row += word;
        }
        page += &row;
        page.push('\n');
    }
    page
}

/// The manual page.
fn manual(tool: &Tool) -> String {
    let name = tool.name;
    let version = tool.version;
    let mut page = format!(".TH {} 1 \"\" \"{name} {version}\"\n", name.to_uppercase());
    page += ".nh\n.ad l\n";
    page += &format!(".SH NAME\n{name} \\- {}\n", roff(tool.summary));
    page += ".SH SYNOPSIS\n";
    for spec in tool.commands {
        for form in spec.forms {
            page += &roff_form(name, spec, form);
            page += ".br\n";
        }
    }
    page += &format!(".B {name} \\-\\-help\n|\n.B \\-\\-version\n");
    page += ".SH DESCRIPTION\n";
    page += &roff_text(tool.intro);
    page += ".SH COMMANDS\n";
    for spec in tool.commands {
        for (at, form) in spec.forms.iter().enumerate() {
            page += if at == 0 { ".TP\n" } else { ".TQ\n" };
            page += &roff_form(name, spec, form);
        }
        page += &roff_text(spec.text).replace(".PP\n", ".IP\n");
    }
    page += &format!(
        ".PP\n.B {name} help\n.I COMMAND\nand\n.B \\-h\nbehind a command show its own help.\n"
    );
    for (title, text) in tool.sections {
        page += &format!(".SH {}\n", title.to_uppercase());
        page += &roff_text(text);
    }
    page
}

fn roff_form(name: &str, spec: &Spec, form: &str) -> String {
    format!("\\fB{name} {}\\fP {}\n", roff(spec.name), roff(form))
}

/// Paragraphs; lines that begin with a space stay as they are.
fn roff_text(text: &str) -> String {
    let mut page = String::new();
    let mut kept = false;
    for line in text.lines() {
        let keep = line.starts_with(' ');
        if keep != kept {
            page += if keep { ".nf\n" } else { ".fi\n" };
            kept = keep;
        }
        page += &match line {
            "" => ".PP\n".into(),
            line => roff(line) + "\n",
        };
    }
    if kept {
        page += ".fi\n";
    }
    page
}

fn roff(text: &str) -> String {
    let text = text.replace('\\', "\\e").replace('-', "\\-");
    match text.starts_with(['.', '\'']) {
        true => format!("\\&{text}"),
        false => text,
    }
}

/// The completions for a shell: bash, zsh or fish.
fn completions(tool: &Tool, shell: &str) -> Option<String> {
    match shell {
        "bash" => Some(bash(tool)),
        "zsh" => Some(zsh(tool)),
        "fish" => Some(fish(tool)),
        _ => None,
    }
}

fn names(tool: &Tool) -> String {
    let names: Vec<&str> = tool.commands.iter().map(|spec| spec.name).collect();
    names.join(" ")
}

/// What bash and zsh share: a `case` that sets `files` where a file is to be offered,
/// and else `offered` to some words. The three are how the shell calls the command,
/// the word before, and the word that is begun.
fn cases(tool: &Tool, command: &str, before: &str, word: &str) -> String {
    let mut page = format!("    case {command}:{before} in\n");
    for spec in tool.commands {
        for (option, takes) in spec.options {
            let offer = match takes {
                Takes::Nothing => continue,
                Takes::File => "files=1 ".into(),
                Takes::Word([]) => String::new(),
                Takes::Word(words) => format!("offered='{}' ", words.join(" ")),
            };
            page += &format!("        {}:{option}) {offer};;\n", spec.name);
        }
    }
    page += &format!("        *) case {command}:{word} in\n");
    for spec in tool.commands {
        let name = spec.name;
        let options = spec.options.iter().map(|&(option, _)| option);
        let options: Vec<&str> = options.chain(["--help"]).collect();
        page += &format!(
            "            {name}:-*) offered='{}' ;;\n",
            options.join(" ")
        );
        let choices = spec.choices();
        if spec.takes_file() {
            page += &format!("            {name}:*) files=1 ;;\n");
        } else if !choices.is_empty() {
            page += &format!("            {name}:*) offered='{}' ;;\n", choices.join(" "));
        }
    }
    page += &format!("            help:*) offered='{}' ;;\n", names(tool));
    page + "        esac ;;\n    esac\n"
}

/// Where it offers no file, readline does: it knows `~` and quotes.
fn bash(tool: &Tool) -> String {
    let (name, names) = (tool.name, names(tool));
    let command = "${COMP_WORDS[1]}";
    let cases = cases(tool, command, "$before", "$word");
    format!(
        "# bash completion for {name}\n\
         _{name}() {{\n\
         \x20   local IFS=$' \\t\\n' offered= files=\n\
         \x20   local word=${{COMP_WORDS[COMP_CWORD]}} before=${{COMP_WORDS[COMP_CWORD-1]}}\n\
         \x20   COMPREPLY=()\n\
         \x20   if [ \"$COMP_CWORD\" -eq 1 ]; then\n\
         \x20       COMPREPLY=($(compgen -W '{names} help --help --version' -- \"$word\"))\n\
         \x20       return\n\
         \x20   fi\n\
         {cases}\
         \x20   if [ -n \"$files\" ]; then\n\
         \x20       mapfile -t COMPREPLY < <(compgen -f -- \"$word\")\n\
         \x20       compopt -o filenames -o default 2>/dev/null || :\n\
         \x20   else\n\
         \x20       COMPREPLY=($(compgen -W \"$offered\" -- \"$word\"))\n\
         \x20   fi\n\
         }}\n\
         complete -F _{name} {name}\n"
    )
}

/// For the folder that zsh looks for functions in, or to be sourced.
fn zsh(tool: &Tool) -> String {
    let (name, names) = (tool.name, names(tool));
    let cases = cases(tool, "$words[2]", "$words[CURRENT-1]", "$PREFIX");
    format!(
        "#compdef {name}\n\
         _{name}() {{\n\
         \x20   local offered= files=\n\
         \x20   if (( CURRENT == 2 )); then\n\
         \x20       compadd -- {names} help --help --version\n\
         \x20       return\n\
         \x20   fi\n\
         {cases}\
         \x20   if [[ -n $files ]]; then\n\
         \x20       _files\n\
         \x20   else\n\
         \x20       compadd -- ${{=offered}}\n\
         \x20   fi\n\
         }}\n\
         if [[ ${{funcstack[1]-}} == _{name} ]]; then\n\
         \x20   _{name} \"$@\"\n\
         else\n\
         \x20   compdef _{name} {name}\n\
         fi\n"
    )
}

fn fish(tool: &Tool) -> String {
    let name = tool.name;
    let first = format!("complete -c {name} -n __fish_use_subcommand");
    let mut page = format!(
        "# fish completion for {name}\n\
         function __fish_{name}_runs\n\
         \x20   set -l words (commandline -opc)\n\
         \x20   test (count $words) -gt 1; and test $words[2] = $argv[1]\n\
         end\n\
         complete -c {name} -f\n\
         {first} -l help -d 'shows every command'\n\
         {first} -l version -d 'shows the version'\n\
         {first} -a help -d 'shows every command, or how to call one'\n\
         complete -c {name} -n '__fish_{name}_runs help' -a '{}'\n",
        names(tool)
    );
    for spec in tool.commands {
        let summary = spec.summary.replace('\'', "\\'");
        let of = format!("complete -c {name} -n '__fish_{name}_runs {}'", spec.name);
        page += &format!("{first} -a {} -d '{summary}'\n", spec.name);
        for (option, takes) in spec.options {
            let option = option.trim_start_matches('-');
            page += &match takes {
                Takes::Nothing => format!("{of} -l {option}\n"),
                Takes::File => format!("{of} -l {option} -r -F\n"),
                Takes::Word([]) => format!("{of} -l {option} -x\n"),
                Takes::Word(words) => format!("{of} -l {option} -x -a '{}'\n", words.join(" ")),
            };
        }
        page += &format!("{of} -l help -d 'shows how to call it'\n");
        let choices = spec.choices();
        if spec.takes_file() {
            page += &format!("{of} -F\n");
        } else if !choices.is_empty() {
            page += &format!("{of} -a '{}'\n", choices.join(" "));
        }
    }
    page
}
