//! Help, and its examples.

use crate::feeds::{blamed, run, text, told};

const COMMANDS: [&str; 6] = ["check", "quote", "zone", "show", "explain", "help"];

/// Every example that the help texts show answers as shown there.
#[test]
fn examples() {
    let mut examples = 0;
    for command in COMMANDS {
        let (_, help) = told(&["help", command]);
        let mut lines = help.lines().peekable();
        while let Some(line) = lines.next() {
            let Some(example) = line.strip_prefix("    $ skaveldro ") else { continue };
            let shown: Vec<&str> =
                std::iter::from_fn(|| lines.next_if(|line| line.starts_with("      "))).map(|line| &line[6..]).collect();
            let answer = text(run(&example.split(' ').collect::<Vec<_>>()).stdout);
            if !shown.is_empty() {
                assert_eq!(answer.lines().collect::<Vec<_>>(), shown, "{example}");
            }
            examples += 1;
        }
    }
    assert_eq!(examples, 9);
}

#[test]
fn in_every_form() {
    let (status, all) = told(&["help"]);
    assert_eq!(status, 0);
    for command in COMMANDS {
        assert!(all.contains(&format!("\n  {command} ")), "{all}");
        let (status, text) = told(&["help", command]);
        assert!(status == 0 && text.starts_with(&format!("usage: skaveldro {command} ")) && text.contains("Exit status"));
        assert_eq!(told(&[command, "--help"]).1, if command == "help" { all.clone() } else { text });
    }
    assert_eq!(told(&["--help"]).1, all);
    assert!(told(&["--version"]).1.starts_with("skaveldro "));
    assert_eq!(told(&["-V"]), told(&["--version"]));
    assert!(blamed(&["help", "chek"]).contains("did you mean check?"));
}
