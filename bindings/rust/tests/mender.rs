//! The mender: what comes of old streams, what is told of it, and what is refused.
mod common;

use common::refused;
use tockplover::mender::{mend, Changes};
use tockplover::stream;

fn changes(moved: usize, dropped: usize, respelled: usize, cut: usize) -> Changes {
    let mut changes = Changes::default();
    (changes.moved, changes.dropped, changes.respelled, changes.cut) = (moved, dropped, respelled, cut);
    changes
}

/// The stream that is mended in an output of its own length, and what was changed.
fn mended(old: &[u8]) -> (Vec<u8>, Changes) {
    let mut out = vec![7; old.len()];
    let mended = mend(old, &mut out).unwrap();
    let (stream, length, changes) = (mended.stream.to_vec(), mended.stream.len(), mended.changes);
    assert_eq!(out[..length], stream);
    assert!(out[length..].iter().all(|&byte| byte == 7));
    (stream, changes)
}

#[test]
fn order_copies_and_spellings() {
    assert_eq!(mended(&[3, 0, 2, 0, 1, 0]), (vec![1, 0, 2, 0, 3, 0], changes(2, 0, 0, 0)));
    assert_eq!(mended(&[1, 1, 9, 3, 0, 1, 1, 9]), (vec![1, 1, 9, 3, 0], changes(0, 1, 0, 0)));
    assert_eq!(
        mended(&[0xfd, 0, 1, 0xff, 0, 0, 0, 0, 0, 0, 0, 1, 9]),
        (vec![1, 1, 9], changes(0, 0, 2, 0))
    );
    assert_eq!(mended(&[1, 0, 5, 2, 9]), (vec![1, 0], changes(0, 0, 0, 3)));
    assert_eq!(mended(&[]), (vec![], changes(0, 0, 0, 0)));
}

#[test]
fn what_is_mended_is_right() {
    let (right, _) = mended(&[0xfe, 0, 0, 1, 1, 0, 9, 1, 4, 0xfd, 0, 9, 1, 4, 3, 0, 0xff]);
    assert_eq!(mended(&right), (right.clone(), Changes::default()));
    let mut index = [0; 12];
    let read = stream::read(&[], 0, &right, &mut index).unwrap();
    let records: Vec<_> = read.records().map(|record| (record.kind, record.value)).collect();
    assert_eq!(records, [(3, &[][..]), (9, &[4]), (257, &[])]);
}

#[test]
fn refusals() {
    let mut out = [7; 8];
    let two_values = [3, 0, 1, 1, 9, 1, 1, 8];
    assert_eq!(refused(mend(&two_values, &mut out)), (80, 5, 1));
    assert_eq!(refused(mend(&two_values, &mut [])), (80, 5, 1));
    assert_eq!(refused(mend(&[3, 0, 1, 1, 9], &mut out[..4])), (12, 0, 0));
    let mut long = [1, 0].repeat(32_768);
    assert_eq!(refused(mend(&long, &mut out)), (14, 0, 0));
    long[65_535] = 1;
    assert_eq!(refused(mend(&long, &mut out)), (14, 0, 0));
    assert_eq!(out, [7; 8]);
    long.truncate(stream::MOST);
    assert_eq!(mend(&long, &mut out).unwrap().changes, changes(0, 32_766, 0, 1));
    assert_eq!(out, [1, 0, 7, 7, 7, 7, 7, 7]);
}
