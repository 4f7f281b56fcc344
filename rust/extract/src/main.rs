//! Writes the crate `nifazombi` as it is published.
use std::path::Path;
use std::process::ExitCode;

const USE: &str = "usage: extract DIR: writes the crate nifazombi into DIR, as it is published";

fn main() -> ExitCode {
    let words: Vec<_> = std::env::args_os().skip(1).collect();
    let root = Path::new(env!("CARGO_MANIFEST_DIR")).ancestors().nth(2);
    let (Some(root), [folder]) = (root, &words[..]) else {
        eprintln!("{USE}");
        return ExitCode::from(2);
    };
    // An empty name would be the folder that this was started in.
    if folder.is_empty() || folder.as_encoded_bytes().starts_with(b"-") {
        eprintln!("{USE}");
        return ExitCode::from(2);
    }
    match extract::published::write_crate(root, Path::new(folder)) {
        Ok(()) => ExitCode::SUCCESS,
        Err(problem) => {
            eprintln!("extract: {problem}");
            ExitCode::FAILURE
        }
    }
}
