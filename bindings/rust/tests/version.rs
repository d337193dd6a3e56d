//! The crate, the archive and the C header have one version.
const HEADER: &str = include_str!("../../c/tockplover.h");

#[test]
fn one_version() {
    assert!(HEADER.contains(&format!("#define TOCKPLOVER_VERSION \"{}\"\n", tockplover::VERSION)));
    assert_eq!(tockplover::version(), tockplover::VERSION_NUMBER);
}

#[test]
fn the_number_of_a_version() {
    let parts: Vec<u64> = tockplover::VERSION.split('.').map(|part| part.parse().unwrap()).collect();
    assert_eq!(parts.len(), 3);
    assert_eq!(tockplover::VERSION_NUMBER, 10_000 * parts[0] + 100 * parts[1] + parts[2]);
}
