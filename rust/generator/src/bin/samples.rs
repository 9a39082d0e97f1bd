//! Writes the sample files into a folder: `cargo run -p generator --bin samples -- ../samples`.
#![forbid(unsafe_code)]

use std::path::PathBuf;

fn main() -> std::io::Result<()> {
    let Some(folder) = std::env::args_os().nth(1).map(PathBuf::from) else {
        eprintln!("usage: samples FOLDER");
        std::process::exit(3);
    };
    for (name, bytes) in generator::samples() {
        std::fs::write(folder.join(name), bytes)?;
    }
    Ok(())
}
