//! The examples of docs/RULES.md (R12.3): each row of its tables by the second program and by the
//! library, the programs' by a shell, as a reader would paste them, and the definition that it
//! shows.

use ridgecrook_tests::case::Case;
use ridgecrook_tests::compare::Compared;
use ridgecrook_tests::library;
use ridgecrook_tests::machine::Step;
use std::path::{Path, PathBuf};
use std::process::Command;
use std::str::FromStr;

fn root() -> PathBuf {
    let tests = Path::new(env!("CARGO_MANIFEST_DIR"));
    tests.parent().expect("a folder of the project").into()
}

fn text(path: &str) -> String {
    std::fs::read_to_string(root().join(path)).expect(path)
}

/// A section of the page, by its heading.
fn section(heading: &str) -> String {
    let page = text("docs/RULES.md");
    let (_, rest) = page.split_once(heading).expect(heading);
    let (section, _) = rest.split_once("\n## ").expect("a section behind it");
    section.to_string()
}

fn examples() -> String {
    section("\n## 12. Examples\n")
}

/// A row of a table: its mark, what is tried, what that gives.
struct Row<'a> {
    mark: &'a str,
    tried: &'a str,
    gives: &'a str,
}

/// A line of the page as a row, if it has four columns and the last two are code.
fn row(line: &str) -> Option<Row<'_>> {
    let cells: Vec<&str> = line.split('|').map(str::trim).collect();
    let ["", mark, _, tried, gives, ""] = cells[..] else {
        return None;
    };
    Some(Row {
        mark,
        tried: code(tried)?,
        gives: code(gives)?,
    })
}

fn code(cell: &str) -> Option<&str> {
    cell.strip_prefix('`')?.strip_suffix('`')
}

/// Holds the rows that are steps, or those that are not, against both programs. Hands back how many
/// there are, and how many are marked * and +.
fn check<C>(steps: bool, answer: fn(&C) -> C::Outcome) -> (usize, [usize; 2])
where
    C: Compared + FromStr<Err = String>,
{
    let section = examples();
    let mut rows: Vec<Row> = section.lines().filter_map(row).collect();
    rows.retain(|row| row.tried.starts_with("step ") == steps);
    for Row { tried, gives, .. } in &rows {
        let case: C = tried.parse().unwrap_or_else(|why| panic!("{tried}: {why}"));
        let both = [case.expected(), answer(&case)].map(|outcome| case.shown(&outcome));
        assert_eq!(both, [*gives; 2], "second program, library: {tried}");
    }
    let marked = |mark| rows.iter().filter(|row| row.mark == mark).count();
    (rows.len(), ["*", "+"].map(marked))
}

#[test]
fn arithmetic_examples() {
    assert_eq!(check::<Case>(false, library::answer), (44, [18, 0]));
}

#[test]
fn step_examples() {
    assert_eq!(check::<Step>(true, library::step_outcome), (85, [12, 10]));
}

/// What stands behind some text, up to the end of the block of code that it begins.
fn block<'a>(section: &'a str, from: &str) -> &'a str {
    let (_, rest) = section.split_once(from).expect(from);
    rest.split_once("```").expect("the end of a block").0
}

/// What a shell prints that is given what a reader would paste.
fn pasted(input: &str) -> String {
    let mut shell = Command::new("sh");
    shell.args(["-c", input]);
    let output = shell.current_dir(root()).output().expect("a shell");
    assert_eq!(String::from_utf8_lossy(&output.stderr), "");
    String::from_utf8_lossy(&output.stdout).to_string()
}

/// Both inputs of the command, one in each version of the saved form, and the replay's (R12.8).
#[test]
fn the_command_examples() {
    let section = examples();
    let lines = block(&section, "prints (R10.4, R10.5)\n\n```\n");
    let report = block(&section, "prints (R14.7, R14.10)\n\n```\n");
    let inputs: Vec<&str> = section.split("```sh\n").skip(1).collect();
    assert_eq!(inputs.len(), 3);
    for (input, expected) in inputs.iter().zip([lines, lines, report]) {
        let (input, _) = input.split_once("```").expect("the end of a block");
        assert_eq!(pasted(input), expected);
    }
}

/// What the page says of the replay's input with a change.
#[test]
fn the_replay_example_changed() {
    let section = examples();
    let (_, input) = section.rsplit_once("```sh\n").expect("the replay's input");
    let (input, _) = input.split_once("```").expect("the end of a block");
    for (from, to, report) in [
        ("\\001'; head -c 56", "\\002'; head -c 56", "differs at 1\n"),
        ("; head -c 62 /dev/zero\n}", "\n}", "bad item 3\n"),
    ] {
        assert_eq!(input.matches(from).count(), 1, "{from}");
        assert_eq!(pasted(&input.replace(from, to)), report);
    }
}

/// The definition that the page explains stands so in its file.
#[test]
fn the_definition_shown() {
    let section = section("\n## Reading a definition\n");
    let definition = block(&section, "```\n");
    assert!(text("crates/half/specs/Round.antt").contains(definition));
}
