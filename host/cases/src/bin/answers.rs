//! Writes the list of answers that the program `replay` is run on, and what it
//! must write, to the crate's folder.

use std::path::Path;
use std::process::ExitCode;

fn main() -> ExitCode {
    if std::env::args().len() > 1 {
        eprintln!("usage: answers");
        return ExitCode::from(2);
    }
    let folder = Path::new(env!("CARGO_MANIFEST_DIR")).join("../../crates/replay");
    let cases = cases::answers::cases();
    let list = cases::answers::list(&cases);
    let line = cases::answers::line_of(&cases);
    let written = std::fs::write(folder.join("stdin"), &list);
    match written.and_then(|()| std::fs::write(folder.join("stdout"), &line)) {
        Ok(()) => {
            println!("{} answers in {} bytes", cases.len(), list.len());
            ExitCode::SUCCESS
        }
        Err(error) => {
            eprintln!("answers: {error}");
            ExitCode::FAILURE
        }
    }
}
