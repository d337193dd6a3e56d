//! BigSizes, tables, streams, triples and streams of the old gateway.

use std::collections::{BTreeMap, BTreeSet};

use super::addresses::{descriptor, no_descriptor};
use super::{damaged, Random, Rules};
use crate::table::{self, Row};
use crate::{bigsize, stream};

/// A number in a BigSize form of the given width, which need not be its shortest.
pub fn bigsize_form(value: u64, width: usize) -> Vec<u8> {
    let bytes = value.to_be_bytes();
    match width {
        1 => vec![value as u8],
        3 => [&[253], &bytes[6..]].concat(),
        5 => [&[254], &bytes[4..]].concat(),
        _ => [&[255], &bytes[..]].concat(),
    }
}

/// A number's shortest form.
pub(super) fn shortest(value: u64) -> Vec<u8> {
    bigsize_form(value, bigsize::width(value))
}

/// A number's shortest form, or, where a rule is broken, a longer one.
fn form(random: &mut Random, value: u64, rules: Rules) -> Vec<u8> {
    match bigsize::width(value) {
        width @ 1..=5 if rules.broken(random) => bigsize_form(value, width + random.one_of(&[2, 4])),
        width => bigsize_form(value, width),
    }
}

/// Bytes to read a BigSize from: of all widths, not shortest, cut short, or with bytes behind.
pub fn bigsize_bytes(random: &mut Random) -> Vec<u8> {
    let value = random.wide_number();
    let mut bytes = form(random, value, Rules::BrokenAtTimes);
    match random.below(4) {
        0 => bytes.truncate(random.below(bytes.len() + 1)),
        1 => bytes.extend(random.number().to_be_bytes()),
        2 => bytes[0] = random.one_of(&[0, 252, 253, 254, 255]),
        _ => {}
    }
    bytes
}

/// A form of the list and a parameter that it allows; sizes are mostly small.
fn form_and_parameter(random: &mut Random) -> (u64, u64) {
    let form = random.one_of(&[0, 1, 2, 2, 3, 4, 5, 5, 5, 6]);
    let small = if random.once_in(8) { random.below(65_503) } else { random.below(20) } as u64;
    let parameter = match form {
        table::ANY | table::ADDRESS => 0,
        table::INTEGER => random.one_of(&[2, 4, 8]),
        table::ITEMS => small + 1,
        table::STREAM => random.one_of(&[0, 1, 2, 3, 63]),
        _ => small,
    };
    (form, parameter)
}

/// A valid table of up to so many rows over few namespaces, with form 5 rows that point among them.
pub fn table(random: &mut Random, most_rows: usize) -> Vec<u64> {
    let mut keys: Vec<(u64, u64)> = (0..random.below(most_rows.min(table::MOST_ROWS) + 1))
        .map(|_| (random.one_of(&[0, 1, 2, 3, 63]), random.wide_number()))
        .collect();
    keys.sort_unstable();
    keys.dedup();
    keys.into_iter()
        .flat_map(|(namespace, kind)| {
            let (form, parameter) = form_and_parameter(random);
            [namespace, kind, form, parameter]
        })
        .collect()
}

/// A table with a fault or two, or none.
pub fn any_table(random: &mut Random) -> Vec<u64> {
    let most_rows = random.one_of(&[4, 20, 256]);
    let mut table = table(random, most_rows);
    for _ in 0..random.below(3) {
        let rows = table.len() / 4;
        let row = 4 * random.below(rows);
        match random.below(8) {
            0 => table.push(random.wide_number()),
            1 => table.truncate(row + 1),
            2 if rows > 0 => table[row] = random.one_of(&[62, 63, 64, u64::MAX]),
            3 if rows > 1 => table.copy_within(row..row + 4, 0),
            4 if rows > 0 => table[row + 2] = random.one_of(&[5, 6, 7, (1 << 32) + 2]),
            5 if rows > 0 => {
                table[row + 3] = random.one_of(&[0, 1, 3, 64, 65_502, 65_503, 65_535, 65_536, (1 << 32) + 2]);
            }
            6 if rows > 0 => table.resize(4 * random.one_of(&[255, 256, 257]), 63),
            _ if rows > 0 => table[row + 1] = random.wide_number(),
            _ => {}
        }
    }
    table
}

/// An older and a newer table: the newer holds the older's rows and more, or one is changed, or both are any tables.
pub fn table_pair(random: &mut Random) -> (Vec<u64>, Vec<u64>) {
    let newer = table(random, 24);
    if random.once_in(4) {
        return (any_table(random), any_table(random));
    }
    let rows = table::rows(&newer).iter();
    let mut older: Vec<u64> = rows.filter(|_| random.once_in(2)).flatten().copied().collect();
    if random.once_in(3) && !older.is_empty() {
        let place = random.below(older.len());
        older[place] = older[place].wrapping_add(1);
    }
    (older, newer)
}

/// BOLT 1's test namespaces: n1 is namespace 1, n2 is namespace 2.
pub const BOLT_1: [u64; 24] = [1, 1, 2, 8, 1, 2, 1, 8, 1, 3, 4, 16, 1, 254, 1, 2, 2, 0, 2, 8, 2, 11, 2, 4];

/// Meters: namespace 0 has each form, and form 5 rows that name namespaces 0 and 1; it nests without end.
pub const METERS: [u64; 44] = [
    0, 0, 6, 0, 0, 1, 2, 8, 0, 2, 1, 3, 0, 3, 3, 4, 0, 4, 4, 2, 0, 6, 5, 0, 0, 8, 0, 0, 0, 11, 5, 1, 1, 0, 2, 2, 1, 6,
    5, 1, 1, 300, 5, 0,
];

/// A table of so many rows in one namespace: the multiples of `step` from 0, with any bytes.
pub fn spaced_rows(namespace: u64, rows: usize, step: u64) -> Vec<u64> {
    (0..rows as u64).flat_map(|row| [namespace, step * row, table::ANY, 0]).collect()
}

/// A value that obeys the row's form, unless a rule is broken; `None` if it would pass `most` bytes.
fn value(random: &mut Random, rows: &[Row], row: &Row, level: u32, most: usize, rules: Rules) -> Option<Vec<u8>> {
    let parameter = row[3] as usize;
    if rules.broken(random) {
        if row[2] == table::ADDRESS {
            return Some(no_descriptor(random));
        }
        let count = random.below(most.min(40));
        return Some(random.bytes(count));
    }
    let mut value = match row[2] {
        table::EXACT => random.bytes_within(parameter, most)?,
        table::INTEGER => {
            let count = random.below(parameter.saturating_add(1));
            random.bytes_within(count, most)?
        }
        table::ITEMS => {
            let items = random.below(4);
            random.bytes_within(parameter.saturating_mul(items), most)?
        }
        table::POINT => random.bytes_within(parameter.saturating_add(33), most)?,
        table::STREAM => {
            // Level 5 is one too deep.
            if level >= stream::LEVELS && rules == Rules::Kept {
                return None;
            }
            if level > stream::LEVELS {
                return Some(Vec::new());
            }
            records(random, rows, row[3], level + 1, most, rules)
        }
        table::ADDRESS => Some(descriptor(random).bytes()).filter(|bytes| bytes.len() <= most)?,
        _ => {
            let count = random.below(30.min(most));
            random.bytes(count)
        }
    };
    if let Some(first) = value.first_mut() {
        match row[2] {
            table::INTEGER | table::POINT if rules.broken(random) => *first = 0,
            table::INTEGER => *first |= 1,
            table::POINT => *first = 2 + (*first & 1),
            _ => {}
        }
    }
    Some(value)
}

/// A stream by the rows, with records that they know, passed-over ones, and streams inside.
fn records(random: &mut Random, rows: &[Row], namespace: u64, level: u32, most: usize, rules: Rules) -> Vec<u8> {
    let known = rows.iter().filter(|row| row[0] == namespace).map(|row| row[1]);
    let share = random.one_of(&[1, 2, 4]);
    let mut kinds: Vec<u64> = known.filter(|_| random.once_in(share)).collect();
    for _ in 0..random.below(4) {
        kinds.push(random.wide_number() | 1);
    }
    if rules.broken(random) {
        kinds.push(random.wide_number());
    }
    kinds.sort_unstable();
    kinds.dedup();
    if rules.broken(random) && !kinds.is_empty() {
        kinds.push(random.one_of(&kinds));
    }
    spelled(random, rows, namespace, level, most, rules, kinds)
}

/// A stream of records of these types, each with a value by its row, as many of them as fit.
fn spelled(
    random: &mut Random,
    rows: &[Row],
    namespace: u64,
    level: u32,
    most: usize,
    rules: Rules,
    kinds: impl IntoIterator<Item = u64>,
) -> Vec<u8> {
    let mut stream = Vec::new();
    for kind in kinds {
        let left = most.saturating_sub(stream.len() + 12);
        let row = rows.iter().find(|row| row[0] == namespace && row[1] == kind);
        let value = match row {
            Some(row) => value(random, rows, row, level, left, rules),
            None => {
                let count = random.below(20);
                random.bytes_within(count, left)
            }
        };
        let Some(value) = value.filter(|value| value.len() <= left && left > 0) else {
            continue;
        };
        let length = if rules.broken(random) { random.wide_number() } else { value.len() as u64 };
        stream.extend(form(random, kind, rules));
        stream.extend(form(random, length, rules));
        stream.extend(value);
    }
    stream
}

/// A stream of at most `most` bytes by a table; valid if the table is and the rules are kept.
pub fn stream(random: &mut Random, table: &[u64], namespace: u64, most: usize, rules: Rules) -> Vec<u8> {
    records(random, table::rows(table), namespace, 1, most, rules)
}

/// A question about a stream.
#[derive(Clone, Debug)]
pub struct StreamCase {
    /// The table of known types.
    pub table: Vec<u64>,
    /// The stream's namespace.
    pub namespace: u64,
    /// The stream.
    pub stream: Vec<u8>,
    /// A type to ask for.
    pub asked: u64,
}

/// A table for streams, mostly valid, and a namespace, mostly one that it has.
pub(super) fn table_and_namespace(random: &mut Random) -> (Vec<u64>, u64) {
    match random.below(8) {
        0 => (BOLT_1.to_vec(), random.one_of(&[1, 2])),
        1 | 2 => (METERS.to_vec(), random.one_of(&[0, 1])),
        3 => (spaced_rows(5, 240, 2), 5),
        4 => (any_table(random), random.one_of(&[0, 1, 2, 63, 64])),
        _ => (table(random, 40), random.one_of(&[0, 1, 2, 3, 63])),
    }
}

/// A stream: valid, with a fault at any level, damaged, or any bytes; at times over 65,535 of them.
pub fn stream_case(random: &mut Random) -> StreamCase {
    let (table, namespace) = table_and_namespace(random);
    let rules = Rules::any(random);
    let most = random.one_of(&[60, 400, 400, 4_000]);
    let mut bytes = stream(random, &table, namespace, most, rules);
    match random.below(24) {
        0..=5 => bytes = damaged(random, &bytes),
        6 => {
            let count = random.below(24);
            bytes = random.bytes(count);
        }
        // A record at the end that fills the stream, or makes it one byte too long.
        7 => {
            let count = stream::LONGEST.saturating_sub(bytes.len() + 12) + random.below(3);
            bytes.extend(shortest(u64::MAX));
            bytes.extend(shortest(count as u64));
            bytes.resize(bytes.len() + count, 0);
        }
        _ => {}
    }
    let asked = match bigsize::read(&bytes) {
        Ok(first) if random.once_in(2) => first.value,
        _ => table.get(1).copied().unwrap_or(random.wide_number()),
    };
    StreamCase { table, namespace, stream: bytes, asked }
}

/// A table of as many rows as a halving is longest or shortest for, over up to three namespaces that have the same types, at
/// times with streams inside.
pub fn many_rows(random: &mut Random) -> Vec<u64> {
    let most = random.one_of(&[1, 2, 3, 127, 128, 129, 240, 254, 255, 256, 256]);
    let (namespaces, step) = (random.one_of(&[1, 2, 3]), random.one_of(&[1, 2, 3, 100]));
    let each = (most / namespaces).max(1);
    let keys = (0..namespaces as u64).flat_map(|namespace| (0..each as u64).map(move |row| (namespace, step * row)));
    keys.flat_map(|(namespace, kind)| match random.below(16) {
        0 => [namespace, kind, table::STREAM, random.below(4) as u64],
        _ => [namespace, kind, table::ANY, 0],
    })
    .collect()
}

/// A stream of few of the types that a table of many rows has, and of types beside them, which are even at times.
pub fn few_types(random: &mut Random, table: &[u64], namespace: u64) -> Vec<u8> {
    let rows = table::rows(table);
    let mut kinds = BTreeSet::new();
    for _ in 0..random.below(12) {
        let kind = random.one_of(rows)[1];
        kinds.insert(match random.below(24) {
            0 => kind + 1,
            1..=6 => (kind + 1) | 1,
            _ if rows.iter().any(|row| row[..2] == [namespace, kind]) => kind,
            _ => kind | 1,
        });
    }
    spelled(random, rows, namespace, 1, 400, Rules::Kept, kinds)
}

/// Many rows, and a stream of few of their types.
pub fn few_of_many_rows(random: &mut Random) -> StreamCase {
    let table = many_rows(random);
    let namespace = random.below(4) as u64;
    let stream = few_types(random, &table, namespace);
    let asked = random.one_of(table::rows(&table))[1];
    StreamCase { table, namespace, stream, asked }
}

/// Arguments of the stream writer.
#[derive(Clone, Debug)]
pub struct TriplesCase {
    /// The table of known types.
    pub table: Vec<u64>,
    /// The stream's namespace.
    pub namespace: u64,
    /// Type, start and length for each record.
    pub triples: Vec<u64>,
    /// Where the values lie.
    pub source: Vec<u8>,
}

/// Triples over a stream's own bytes, or none if it is refused.
pub fn triples_of(table: &[u64], namespace: u64, bytes: &[u8]) -> Vec<u64> {
    let records = stream::count(table, namespace, bytes).map_or(0, |counts| counts.records);
    let mut index = vec![0; stream::ROW_NUMBERS * records];
    match stream::read(table, namespace, bytes, &mut index) {
        Ok(_) => index.chunks(stream::ROW_NUMBERS).flat_map(|row| &row[..3]).copied().collect(),
        Err(_) => Vec::new(),
    }
}

/// Triples of the records at the front of any bytes, whose values are not judged.
fn unjudged_triples(bytes: &[u8]) -> Vec<u64> {
    let mut triples = Vec::new();
    let mut at = 0;
    while let Ok(kind) = bigsize::read(&bytes[at..]) {
        at += kind.width;
        let Ok(length) = bigsize::read(&bytes[at..]) else { break };
        at += length.width;
        if length.value > (bytes.len() - at) as u64 {
            break;
        }
        triples.extend([kind.value, at as u64, length.value]);
        at += length.value as usize;
    }
    triples
}

/// Triples with a fault or two: a number changed, a row lost, doubled or cut.
pub(super) fn damaged_triples(random: &mut Random, triples: &mut Vec<u64>, source: usize) {
    for _ in 0..=random.below(2) {
        let place = random.below(triples.len());
        match random.below(5) {
            0 => triples.truncate(place),
            1 => triples.push(random.wide_number()),
            2 if triples.len() >= 3 => {
                let row = random.below(triples.len() / 3);
                triples.extend_from_within(3 * row..3 * row + 3);
            }
            3 if !triples.is_empty() => {
                triples[place] = random.one_of(&[0, 1, source as u64, source as u64 + 1, u64::MAX]);
            }
            _ if !triples.is_empty() => triples[place] = random.wide_number(),
            _ => {}
        }
        // Keeps whole rows mostly, since a cut one hides all other faults.
        if !random.once_in(4) {
            triples.truncate(triples.len() / 3 * 3);
        }
    }
}

/// Triples for the stream writer: those of a valid stream, or with faults in the rows or in the values.
pub fn triples_case(random: &mut Random) -> TriplesCase {
    let (table, namespace) = table_and_namespace(random);
    let rules = Rules::any(random);
    let source = stream(random, &table, namespace, 400, rules);
    let triples = unjudged_triples(&source);
    let mut case = TriplesCase { table, namespace, triples, source };
    match random.below(6) {
        0 => damaged_triples(random, &mut case.triples, case.source.len()),
        1 if !case.source.is_empty() => {
            let place = random.below(case.source.len());
            case.source[place] = random.byte();
        }
        2 => {
            let cut = random.below(case.source.len() + 1);
            case.source.truncate(cut);
        }
        // Values that together come close to 65,535 bytes or pass them.
        3 if random.once_in(4) => {
            let count = 65_505 + random.below(30);
            case.source.resize(count, 0);
            case.triples.extend([u64::MAX, 0, count as u64]);
        }
        _ => {}
    }
    case
}

/// A stream of as many small records as fit in 65,535 bytes: all odd types from 1, and those of
/// `spaced_rows(namespace, rows, step)`.
pub fn full_stream(rows: usize, step: u64) -> Vec<u8> {
    let known = |kind: u64| kind.is_multiple_of(step) && kind / step < rows as u64;
    let mut stream = Vec::new();
    for kind in (0..).filter(|&kind| kind % 2 == 1 || known(kind)) {
        let head = shortest(kind);
        if stream.len() + head.len() + 2 > stream::LONGEST {
            break;
        }
        stream.extend(head);
        stream.extend([1, 42]);
    }
    stream
}

/// True once in `times`, never for 0.
fn at_times(random: &mut Random, times: usize) -> bool {
    times > 0 && random.once_in(times)
}

/// Types and values, in any order, that take so many bytes: types of any width or few ones that come often, with the
/// same value each time, unless some have another.
fn old_records(random: &mut Random, bytes: usize) -> Vec<(u64, Vec<u8>)> {
    let kinds = random.one_of(&[1, 3, 20, 253, 1_000, 65_536, u64::MAX, u64::MAX]);
    let longest = random.one_of(&[0, 0, 2, 12, 300]);
    let others = if random.once_in(4) { random.one_of(&[2, 20, 5_000]) } else { 0 };
    let mut values = BTreeMap::new();
    let mut records = Vec::new();
    let mut taken = 0;
    while taken < bytes {
        let kind = random.wide_number() % kinds;
        let value = values.entry(kind).or_insert_with(|| {
            let count = random.below(longest + 1);
            random.bytes(count)
        });
        let mut value = value.clone();
        if at_times(random, others) {
            value.push(random.byte());
        }
        taken += bigsize::width(kind) + bigsize::width(value.len() as u64) + value.len();
        records.push((kind, value));
    }
    records
}

/// A number, once in so many times in a longer form than its shortest.
fn old_form(random: &mut Random, value: u64, long: usize) -> Vec<u8> {
    let least = bigsize::width(value);
    let width = if at_times(random, long) { random.one_of(&[3, 5, 9]).max(least) } else { least };
    bigsize_form(value, width)
}

/// A stream that the old gateway wrote, of about so many bytes: its records out of order, rising or falling, doubled,
/// with long spellings, with two values of one type, cut anywhere or damaged, each of these at times.
pub fn old_stream(random: &mut Random, bytes: usize) -> Vec<u8> {
    let mut records = old_records(random, bytes);
    match random.below(4) {
        0 => records.sort(),
        1 => records.sort_by(|a, b| b.cmp(a)),
        _ => {}
    }
    let long = random.one_of(&[0, 0, 1, 2, 20]);
    let mut stream = Vec::new();
    for (kind, value) in records {
        stream.extend(old_form(random, kind, long));
        stream.extend(old_form(random, value.len() as u64, long));
        stream.extend(value);
    }
    match random.below(8) {
        0 | 1 => stream.truncate(random.below(stream.len() + 1)),
        2 => stream = damaged(random, &stream),
        _ => {}
    }
    stream
}

/// A record in its shortest form.
pub(super) fn record(kind: u64, value: &[u8]) -> Vec<u8> {
    [&shortest(kind)[..], &shortest(value.len() as u64), value].concat()
}

/// A stream of records of these types in this order, all with the same value, as many of them as fit in 65,535 bytes.
pub fn records_of(kinds: impl IntoIterator<Item = u64>, value: &[u8]) -> Vec<u8> {
    let mut stream = Vec::new();
    for kind in kinds {
        let record = record(kind, value);
        if stream.len() + record.len() > stream::LONGEST {
            break;
        }
        stream.extend(record);
    }
    stream
}
