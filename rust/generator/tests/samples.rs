//! The files in samples/ are what the generator makes today.

use std::path::Path;

#[test]
fn committed_samples_have_not_drifted() {
    let folder = Path::new(env!("CARGO_MANIFEST_DIR")).join("../../samples");
    for (name, bytes) in generator::samples() {
        let committed = std::fs::read(folder.join(name)).unwrap_or_else(|error| panic!("{name}: {error}"));
        let again = "cargo run -p generator --bin samples -- ../samples";
        assert!(committed == bytes, "{name} has drifted; make it again in rust/ with {again}");
    }
}

#[test]
fn nothing_else_is_among_them() {
    let folder = Path::new(env!("CARGO_MANIFEST_DIR")).join("../../samples");
    let names = std::fs::read_dir(folder).expect("samples/ is there").map(|it| it.expect("an entry").file_name());
    let known: Vec<&str> = generator::samples().iter().map(|(name, _)| *name).collect();
    for name in names.filter(|name| [".wad", ".pam"].iter().any(|end| name.to_string_lossy().ends_with(end))) {
        assert!(known.iter().any(|it| name == *it), "{} comes from nowhere", name.to_string_lossy());
    }
}
