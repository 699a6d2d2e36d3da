//! Wrong usage, and help.

use crate::common::{text, wrong, DARK, TALLY};

#[test]
fn wrong_usage() {
    let flat = ["convert", "half", "--width", "2", "--height", "1", "--key", "180", "-", "-"];
    let without = |at: usize| [&flat[..at], &flat[at + 2..]].concat();
    let with = |at: usize, word| {
        let mut arguments = flat.to_vec();
        arguments[at] = word;
        arguments
    };
    let cases: Vec<(Vec<&str>, &str)> = vec![
        (vec![], "no command; see dofnihet --help"),
        (vec!["chart"], "no command chart; see dofnihet --help"),
        (vec!["-h"], "no command -h; see"),
        (vec!["convert"], "wanted: a kind, a source and a strip; see dofnihet convert --help"),
        (flat[..9].to_vec(), "wanted: a kind, a source and a strip; see"),
        ([&flat[..], &["-"]].concat(), "wanted: a kind, a source and a strip; see"),
        (with(1, "exr"), "no kind exr; see"),
        (without(2), "--width is missing; see"),
        (without(4), "--height is missing; see"),
        (without(6), "--key is missing; see"),
        (with(3, "two"), "--width is no whole number: two; see"),
        (with(5, "-1"), "--height is no whole number: -1; see"),
        (with(7, "0.18"), "--key is no whole number: 0.18; see"),
        (with(7, "+180"), "--key is no whole number: +180; see"),
        (with(7, ""), "--key is no whole number: ; see"),
        (with(2, "--breadth"), "no option --breadth; see"),
        (with(2, "--key"), "--key is given twice; see"),
        ([&flat[..], &["--key"]].concat(), "--key has no number; see"),
        (
            [&flat[..], &["--white"]].concat(),
            "--white has no number; see dofnihet convert --help",
        ),
        ([&flat[..], &["--white", "3.0"]].concat(), "--white is no whole number: 3.0; see"),
        ([&flat[..], &["--white", "none"]].concat(), "--white is no whole number: none; see"),
        (
            [&flat[..], &["--white", "30", "--white", "30"]].concat(),
            "--white is given twice; see",
        ),
        (with(1, "pfm"), "a PFM file tells its width and height itself; see"),
        (vec!["convert", "pfm", "-", "-"], "--key is missing; see"),
        (vec!["tally"], "wanted: a strip; see dofnihet tally --help"),
        (vec!["tally", "-", "-"], "wanted: a strip; see"),
        (vec!["tally", "--key", "180", "-"], "no option --key; see"),
        (vec!["map", "--white", "30", "-", "-"], "no option --white; see dofnihet map --help"),
        (vec!["info"], "wanted: a strip; see dofnihet info --help"),
        (vec!["map", "-"], "wanted: a strip and a picture; see dofnihet map --help"),
        (
            vec!["row", "-", "0"],
            "wanted: a strip, a row number and an output; see dofnihet row --help",
        ),
        (vec!["row", "-", "top", "-"], "the row number is no whole number: top; see"),
        (vec!["row", "--bands", "-", "0", "-"], "no option --bands; see dofnihet row --help"),
        (vec!["tally", "--bands"], "wanted: one strip or more; see dofnihet tally --help"),
        (vec!["info", "--bands"], "wanted: one strip or more; see dofnihet info --help"),
        (vec!["info", "-", "--bands", "--bands"], "--bands is given twice; see"),
        (
            vec!["map", "--bands"],
            "wanted: one strip or more and a picture; see dofnihet map --help",
        ),
        (vec!["map", "-", "--bands"], "wanted: one strip or more and a picture; see"),
        (vec!["map", "--bands", "--key", "-", "-"], "no option --key; see"),
        (
            vec!["cut", "-", "7"],
            "wanted: a strip, a number of rows and a prefix; see dofnihet cut --help",
        ),
        (vec!["cut", "-", "0", "map-"], "a band has one row or more; see"),
        (vec!["cut", "-", "7.5", "map-"], "the number of rows is no whole number: 7.5; see"),
        (vec!["cut", "-", "7", "-"], "bands are files, and - is none; see"),
    ];
    for (arguments, beginning) in cases {
        wrong(&arguments, &[], beginning);
    }
}

#[test]
fn help() {
    let all = text(&["--help"], &[]);
    for command in ["convert", "tally", "map", "row", "info", "cut"] {
        let help = text(&[command, "--help"], &[]);
        for usage in help.lines().take_while(|line| !line.is_empty()) {
            assert!(usage.starts_with(&format!("dofnihet {command} ")), "{usage}");
            assert!(all.contains(&format!("    {usage}\n")), "{usage}");
        }
        assert_eq!(text(&[command, "-", "--key", "--help"], &[]), help);
    }
    assert!(text(&["convert", "--help"], &[]).contains("no float is multiplied by it"));
    assert!(text(&["tally", "--help"], &[]).contains(&example(TALLY)));
    assert!(all.contains(&example(DARK)));
}

/// What the program prints, as a help text shows it.
fn example(printed: &str) -> String {
    let lines: String = printed.lines().map(|line| format!("    {line}\n")).collect();
    format!("\n\n{lines}\n")
}
