//! Writes the input of a stored example to a file: `image NAME PATH`, where NAME is the example's.
//! `image hub crates/report_examples/data/hub.image` makes that one again.

use std::process::ExitCode;

use divanegret_tests::examples::examples;

fn main() -> ExitCode {
    let words: Vec<String> = std::env::args().skip(1).collect();
    let examples = examples();
    let chosen = match words.as_slice() {
        [name, path] => {
            examples.iter().find(|(known, _)| known == name).map(|(_, image)| (image, path))
        }
        _ => None,
    };
    let Some((image, path)) = chosen else {
        let names: Vec<&str> = examples.iter().map(|(name, _)| *name).collect();
        eprintln!("usage: image NAME PATH, where NAME is one of {}", names.join(", "));
        return ExitCode::from(2);
    };
    match std::fs::write(path, image) {
        Ok(()) => ExitCode::SUCCESS,
        Err(error) => {
            eprintln!("{path}: {error}");
            ExitCode::FAILURE
        }
    }
}
