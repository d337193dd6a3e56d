//! The example books of the repository against their reports.

use std::fs;
use std::path::Path;

use tockplover_reference::book::report;
use tockplover_reference::Refusal;

#[test]
fn reports_of_the_examples() {
    let folder = Path::new(env!("CARGO_MANIFEST_DIR")).join("../../examples");
    let mut compared = 0;
    for entry in fs::read_dir(folder).unwrap() {
        let path = entry.unwrap().path();
        if path.extension().is_none_or(|extension| extension != "book") {
            continue;
        }
        let book = fs::read(&path).unwrap();
        let expected = fs::read(path.with_extension("report")).unwrap();
        let mut out = vec![0xa5; 1 << 20];
        let length = report(&book, &mut out).unwrap();
        assert_eq!(out[..length].escape_ascii().to_string(), expected.escape_ascii().to_string(), "{path:?}");
        assert!(out[length..].iter().all(|&byte| byte == 0xa5));
        let mut short = vec![0xa5; length - 1];
        assert_eq!(report(&book, &mut short), Err(Refusal::bare(12)));
        assert!(short.iter().all(|&byte| byte == 0xa5));
        compared += 1;
    }
    assert!(compared >= 21);
}
