//! Help.

use crate::nearest::did_you_mean;
use crate::report::{Failure, Report};

/// A command: how it is called, what it tells, examples and their answers.
struct Command {
    name: &'static str,
    usages: &'static [&'static str],
    short: &'static str,
    about: &'static str,
    examples: &'static [(&'static str, &'static str)],
}

const COMMANDS: [Command; 6] = [
    Command {
        name: "check",
        usages: &["check FOLDER...", "check FILE...", "check --as ROLE FILE", "check ROLE=FILE..."],
        short: "are the feeds accepted, and if not, which rule do they break?",
        about: "FOLDER is judged as a set: eight files by their standard names, those that are not there being absent. The first line is the
verdict with its word, the next one names the first rule that the set breaks. Then come warnings, the size and state of each of
the eight files, and the names of what else is in the folder, which is not read. A file is clean if it passes stages A and B and
repeats no id: then it may still break a rule of the set. Where a file cannot be read there is no verdict, which the first line
says; the rest is told all the same.

FILE, under its standard name, is judged alone: is it clean? Conditions, references and sums (kinds 13 to 15) are not judged. With
--as ROLE it may have any name, and - is standard input.

ROLE=FILE names the files of one set one by one; those that are not named are absent.

ROLE is one of vehicle_types, station_information, station_status, free_bike_status, system_pricing_plans, geofencing_zones,
system_information, system_regions.
Of several folders or files each has its report, and a last line counts them. Nothing is fetched: download a feed first.",
        examples: &[
            (
                "skaveldro check crates/sample/data",
                "accepted, word 1000000000000000
files:
  vehicle_types.json         1072 bytes, clean
  station_information.json   927 bytes, clean
  station_status.json        1122 bytes, clean
  free_bike_status.json      997 bytes, clean
  system_pricing_plans.json  1436 bytes, clean
  geofencing_zones.json      1132 bytes, clean
  system_information.json    377 bytes, clean
  system_regions.json        216 bytes, clean",
            ),
            (
                "skaveldro check crates/sample/data/free_bike_status.json",
                "clean, judged alone as free_bike_status.json, 997 bytes
conditions, references and sums were not judged (kinds 13 to 15); name a folder to judge a whole set",
            ),
            (
                "skaveldro check free_bike_status=crates/sample/data/free_bike_status.json",
                "not accepted, word 14d2d00100000000
free_bike_status.json, record 1 (id \"5f0c9e6a\"), vehicle_type_id, line 13, column 28: must be the id of a record of \
                 vehicle_types.json, which is absent; found \"e_bike\"
files:
  vehicle_types.json         absent
  station_information.json   absent
  station_status.json        absent
  free_bike_status.json      997 bytes, clean alone, at fault in the set: see above
  system_pricing_plans.json  absent
  geofencing_zones.json      absent
  system_information.json    absent
  system_regions.json        absent",
            ),
        ],
    },
    Command {
        name: "quote",
        usages: &["quote PATH PLAN SECONDS METRES"],
        short: "what does a ride cost?",
        about: "Prices a ride under a plan. PATH is system_pricing_plans.json, the folder that has it, or - for standard input; PLAN is a plan_id.
Tells the amount, and whether the ride reaches the end of all that the plan prices by the minute or by the kilometre.",
        examples: &[(
            "skaveldro quote crates/sample/data day_pass 14400 2500",
            "15.0000
the ride reaches the end of all per-minute prices of the plan: nothing is charged from there on",
        )],
    },
    Command {
        name: "zone",
        usages: &["zone PATH LAT LON TYPE MOMENT"],
        short: "what do the zone rules allow at a point?",
        about: "Tells what the zone rules at a point allow, each value by the first rule that applies and gives it. PATH is geofencing_zones.json,
the folder that has it, or - for standard input; LAT and LON are degrees with at most six decimals; TYPE is a vehicle_type_id
(\"\" for none); MOMENT is in seconds since 1970.",
        examples: &[(
            "skaveldro zone crates/sample/data 47.37 8.543 city_bike 1716458431",
            "ride_allowed yes, ride_through_allowed yes, maximum_speed_kph 10, station_parking yes",
        )],
    },
    Command {
        name: "show",
        usages: &["show PATH FILE RECORD"],
        short: "the bytes of a record",
        about: "Prints a record as it stands in a file. PATH is the file, the folder that has it, or - for standard input; FILE is its number, 1 to
8, or its standard name; RECORD counts from 1. The file must be clean: it must pass stages A and B and repeat no id.
system_information.json (7) has no records.",
        examples: &[(
            "skaveldro show crates/sample/data vehicle_types 3",
            r#"{
        "vehicle_type_id": "scooter",
        "form_factor": "scooter_standing",
        "propulsion_type": "electric",
        "name": "Scooter",
        "max_range_meters": 25000.5,
        "default_pricing_plan_id": "electric"
      }"#,
        )],
    },
    Command {
        name: "explain",
        usages: &["explain WORD [PATH]"],
        short: "what does a verdict word say?",
        about: "Says in words what a verdict word, 16 hexadecimal digits, means. With PATH, the folder that was judged or the file that the word
blames, also the line, the column and the record's id. PATH is judged again: if it does not give the word, it is not what was
judged, which is said, and the exit status is 1. Otherwise the exit status is the verdict's.",
        examples: &[
            (
                "skaveldro explain 1462800300000000",
                "not accepted, word 1462800300000000
free_bike_status.json, record 3, bike_id: required, but missing",
            ),
            (
                "skaveldro explain 1462800300000000 crates/sample/data",
                "not accepted, word 1462800300000000
free_bike_status.json, record 3, bike_id: required, but missing
warning: this is not the set that was judged: crates/sample/data now gives the word 1000000000000000",
            ),
        ],
    },
    Command {
        name: "help",
        usages: &["help [COMMAND]"],
        short: "help on a command, with examples",
        about: "Tells what a command does, with examples.",
        examples: &[("skaveldro help zone", "")],
    },
];

const OPTIONS: &str = "Options, anywhere on the line:
  --json      answer with a JSON object on one line, one for each folder or file
  --as ROLE   check: what the one FILE is
  --help, -h
  --version, -V
  --          ends the options

Exit status:
  0  the set is accepted, the file is clean, or the question has its answer
  1  the set is not accepted, the file is not clean, or the question has no such answer
  2  no answer: bad usage, or something cannot be read; standard error says what, with --json an object on standard output";

/// Help on all commands, in short.
pub fn all() -> Result<Report, Failure> {
    let mut text =
        String::from("skaveldro checks GBFS 2.3 bike-share feeds, prices rides and answers zone rules.\n\nCommands:\n");
    for command in &COMMANDS {
        text.push_str(&format!("  {:31} {}\n", command.usages[0], command.short));
    }
    Ok(Report::text(format!("{text}\n{OPTIONS}\n\n'skaveldro help COMMAND' tells more, with examples.")))
}

/// Help on one.
pub fn of(name: &str) -> Result<Report, Failure> {
    let command = find(name).ok_or_else(|| misused(name))?;
    Ok(Report::text(format!("{}\n\n{}\n\n{}\n\n{OPTIONS}", usage(command), command.about, examples(command))))
}

fn usage(command: &Command) -> String {
    let usages: Vec<String> = command.usages.iter().map(|usage| format!("skaveldro {usage}")).collect();
    format!("usage: {}", usages.join("\n       "))
}

fn examples(command: &Command) -> String {
    let shown = command.examples.iter().map(|(example, answer)| {
        let answer = answer.lines().map(|line| format!("\n      {line}")).collect::<String>();
        format!("    $ {example}{answer}")
    });
    shown.collect::<Vec<_>>().join("\n\n")
}

fn find(name: &str) -> Option<&'static Command> {
    COMMANDS.iter().find(|command| command.name == name)
}

/// Why a command line is not understood.
pub fn misuse(why: &str) -> Failure {
    Failure::new(format!("{why}\nSee 'skaveldro help'."))
}

/// A command that does not exist, or that has other arguments.
pub fn misused(name: &str) -> Failure {
    match find(name) {
        Some(command) => Failure::new(format!("{}\nSee 'skaveldro help {name}'.", usage(command))),
        None => misuse(&format!("unknown command {name:?}{}", did_you_mean(name, COMMANDS.iter().map(|command| command.name)))),
    }
}
