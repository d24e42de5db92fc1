//! The words of the command line, in any bytes.

use crate::help::misuse;
use crate::nearest::did_you_mean;
use crate::report::Failure;
use crate::shown::shown;
use crate::standard::required_role;
use std::ffi::{OsStr, OsString};
use std::os::unix::ffi::OsStrExt;

/// The options by their whole names.
const OPTIONS: [&str; 4] = ["--as", "--help", "--json", "--version"];

/// What the command line asks for.
#[derive(Debug, Default, PartialEq, Eq)]
pub struct Arguments {
    /// The command and what it is given.
    pub words: Vec<OsString>,
    /// Which file `--as` says that one is.
    pub role: Option<u8>,
    /// Is the answer to be JSON?
    pub json: bool,
    pub help: bool,
    pub version: bool,
}

impl Arguments {
    /// Options may stand anywhere up to `--`. A word that begins with a minus and a digit is a number, and a minus alone is a word.
    pub fn read(given: impl IntoIterator<Item = OsString>) -> Result<Arguments, Failure> {
        let mut arguments = Arguments::default();
        let mut given = given.into_iter();
        while let Some(word) = given.next() {
            match word.as_bytes() {
                b"--" => {
                    arguments.words.extend(given);
                    break;
                }
                b"--json" => arguments.json = true,
                b"--help" | b"-h" => arguments.help = true,
                b"--version" | b"-V" => arguments.version = true,
                b"--as" => {
                    let role = given.next().ok_or_else(|| misuse("--as needs a ROLE: --as free_bike_status, for example"))?;
                    arguments.set_role(&role)?;
                }
                bytes if bytes.starts_with(b"--as=") => arguments.set_role(OsStr::from_bytes(&bytes[5..]))?,
                bytes if is_option(bytes) => return Err(unknown(&word)),
                _ => arguments.words.push(word),
            }
        }
        Ok(arguments)
    }

    fn set_role(&mut self, text: &OsStr) -> Result<(), Failure> {
        if self.role.is_some() {
            return Err(misuse("--as is given twice"));
        }
        self.role = Some(required_role("--as", text)?);
        Ok(())
    }
}

/// Does a command line ask for JSON, whatever else is wrong with it?
pub fn wants_json(given: &[OsString]) -> bool {
    given.iter().take_while(|word| *word != "--").any(|word| word == "--json")
}

fn is_option(word: &[u8]) -> bool {
    word.strip_prefix(b"-").is_some_and(|rest| rest.first().is_some_and(|first| !first.is_ascii_digit()))
}

fn unknown(word: &OsStr) -> Failure {
    let text = word.to_string_lossy();
    let name = text.split('=').next().unwrap_or_default();
    misuse(&format!("unknown option {}{}", shown(word), did_you_mean(name, OPTIONS)))
}

#[cfg(test)]
mod tests {
    use super::*;

    fn read(words: &[&str]) -> Result<Arguments, String> {
        Arguments::read(words.iter().map(OsString::from)).map_err(|failure| failure.messages.join("\n"))
    }

    fn words(given: &[&str]) -> Vec<OsString> {
        given.iter().map(OsString::from).collect()
    }

    #[test]
    fn options_and_numbers() {
        let arguments = read(&["zone", "-8.6", "--json", "-"]).unwrap();
        assert_eq!(arguments, Arguments { words: words(&["zone", "-8.6", "-"]), json: true, ..Arguments::default() });
        let arguments = read(&["-h", "--", "--json", "--"]).unwrap();
        assert_eq!(arguments, Arguments { words: words(&["--json", "--"]), help: true, ..Arguments::default() });
        assert!(read(&["-V"]).unwrap().version);
        assert_eq!(read(&["--as", "geofencing_zones"]).unwrap().role, Some(6));
        assert_eq!(read(&["--as=free_bike_status.json"]).unwrap().role, Some(4));
        assert!(wants_json(&words(&["-x", "--json"])) && !wants_json(&words(&["--", "--json"])));
    }

    #[test]
    fn options_that_there_are_not() {
        let said = |given: &[&str], text: &str| {
            let why = read(given).expect_err("this is bad use");
            assert!(why.contains(text), "{given:?}: {why}");
        };
        said(&["--jsn"], "unknown option --jsn; did you mean --json?");
        said(&["--hlep=1"], "unknown option --hlep=1; did you mean --help?");
        said(&["-x"], "unknown option -x\n");
        said(&["--as"], "--as needs a ROLE");
        said(&["--as", "bikes"], "--as must be one of vehicle_types, ");
        said(&["--as", "free_bikes_status"], "did you mean free_bike_status?");
        said(&["--as=vehicle_types", "--as=vehicle_types"], "--as is given twice");
    }
}
