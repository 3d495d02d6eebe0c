//! Writes a text of a class and seed, of the field, or a large one; lists the classes; counts
//! numbers.

use second::progress::{asks_for_help, help, wrong_usage, Progress};
use second::texts::{find_class, find_field, large, Histogram, Variant, CLASSES, FIELDS};
use std::io::{self, Write};
use std::process::ExitCode;
use std::time::Duration;

const HELP: &str = "\
usage: texts CLASS SEED | --classes | --histogram SEEDS | --field NAME [SIZE] | --large BYTES

Writes a CNF text to standard output, the same for the same arguments.

  --classes              lists the classes and the names of the field
  --histogram SEEDS      counts class by number, 0 for sound, over the first seeds of every class
  --field NAME [SIZE]    writes a CNF of the field; a size that needs more than 2,048 variables
                         makes a faulty one. Behind it --crlf ends lines with CR and LF, and
                         --comments puts comment lines in
  --large BYTES          writes a sound text of about so many bytes, to time a reader with

Status: 0 written; 1 standard output failed; 2 wrong usage.";

/// About how long a text takes to be written and judged.
const EACH: Duration = Duration::from_micros(80);

fn main() -> ExitCode {
    let arguments: Vec<String> = std::env::args().skip(1).collect();
    if asks_for_help(&arguments) {
        return help(HELP);
    }
    let arguments: Vec<&str> = arguments.iter().map(String::as_str).collect();
    let output = match arguments.as_slice() {
        ["--classes"] => Some(names()),
        ["--histogram", seeds] => seeds.parse().ok().map(histogram),
        ["--large", bytes] => bytes.parse().ok().map(large),
        ["--field", name, options @ ..] => field(name, options),
        [class, seed] => text(class, seed),
        _ => None,
    };
    match output.map(|bytes| io::stdout().write_all(&bytes)) {
        Some(Ok(())) => ExitCode::SUCCESS,
        Some(Err(error)) => {
            eprintln!("texts: {error}");
            ExitCode::FAILURE
        }
        None => wrong_usage(HELP),
    }
}

fn names() -> Vec<u8> {
    let told = |name: &str, about: &str| format!("{name:20} {about}\n");
    let classes = CLASSES.iter().map(|class| told(class.name, class.about));
    let fields = FIELDS.iter().map(|field| {
        let name = format!("--field {}", field.name);
        format!("{name:20} {}; SIZE is {}\n", field.about, field.usual)
    });
    classes.chain(fields).collect::<String>().into_bytes()
}

fn text(class: &str, seed: &str) -> Option<Vec<u8>> {
    Some(find_class(class)?.text(seed.parse().ok()?))
}

fn field(name: &str, options: &[&str]) -> Option<Vec<u8>> {
    let field = find_field(name)?;
    let mut size = field.usual;
    let mut variant = Variant::default();
    for option in options {
        match *option {
            "--crlf" => variant.crlf = true,
            "--comments" => variant.comments = true,
            number => size = number.parse().ok()?,
        }
    }
    let is_written = (1..=field.most).contains(&size);
    is_written.then(|| field.text(size, variant))
}

/// Class by number over the first seeds.
fn histogram(seeds: u64) -> Vec<u8> {
    let mut histogram = Histogram::default();
    let texts = seeds * CLASSES.len() as u64;
    let mut progress = Progress::begin("texts", texts, "texts", EACH);
    for class in &CLASSES {
        for seed in 0..seeds {
            histogram.count_text(class, &class.text(seed));
            progress.step();
        }
    }
    format!("{histogram}{texts} texts\n").into_bytes()
}
