//! The worked examples: each `.in` of `examples/` has the `.out` that 01 gives it.

use harness::reference::statement::statement;
use std::fs;
use std::path::Path;

#[test]
fn worked_examples() {
    let folder = Path::new(env!("CARGO_MANIFEST_DIR")).join("../examples");
    let mut inputs = 0;
    let mut outputs = 0;
    for entry in fs::read_dir(folder).expect("the folder of examples is there") {
        let path = entry.expect("an entry of the folder").path();
        match path.extension().and_then(|extension| extension.to_str()) {
            Some("in") => inputs += 1,
            Some("out") => outputs += 1,
            _ => continue,
        }
        let read = |extension| fs::read(path.with_extension(extension)).expect("both files");
        let printed = statement(&read("in"));
        assert!(
            printed == read("out"),
            "{}: {}",
            path.display(),
            String::from_utf8_lossy(&printed)
        );
    }
    assert!(inputs > 0 && inputs == outputs);
}
