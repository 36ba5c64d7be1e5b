//! Slices of output and heads of panic messages.

use crate::generator::Generator;
use deodarsieve::TestOutputErrorSlice;
use deodarsieve::counted::{ByteSource, CountedBytes, last_panic_head};
use deodarsieve_archive::sys::{self, written};
use std::num::NonZero;

const SEED: u64 = 1;

/// The number of generated pairs of streams.
const COUNT: usize = 1_000_000;

/// The most bytes of a stream that a failed comparison shows.
const MOST_SHOWN: usize = 1_000;

/// The starts of the blocks of a search, counted from the end of a stream: multiples of 131,072
/// bytes for an error and a note, and the others for a panic.
const EDGES: [usize; 4] = [98_304, 131_072, 196_608, 262_144];

/// The cases of the replay, some of which begin with an output.
const REPLAYED: &str = include_str!("../../data/upstream_replay.txt");

/// The pieces of streams: heads, quotes, errors, notes, digits, white space, and bytes that are not
/// UTF-8.
const PIECES: &[&[u8]] = &[
    b"thread 'main' panicked at ",
    b"\nthread 'tests::a' panicked at src/lib.rs:4:5:\nboom\n",
    b"\nthread 'main' (41) panicked at ",
    b"\nthread 'caf\xc3\xa9\n' panicked at ",
    b"\nthread '<\xff>' panicked at ",
    b"thread '",
    b"\nthread '",
    b"' panicked at ",
    b"' (",
    b") panicked at ",
    b" panicked at ",
    b"panicked at",
    b"'",
    b"''",
    b"a",
    b"tests::name",
    b"0",
    b"1234567890",
    "\u{663}".as_bytes(),
    "\u{ff17}".as_bytes(),
    "\u{1d7d8}".as_bytes(),
    "\u{b2}".as_bytes(),
    "\u{2460}".as_bytes(),
    b"Error: ",
    b"Error:",
    b"\nError: no such file\n",
    b"\nError:\n\r\n",
    b"\r\nError: ",
    b"error: ",
    b"note: test did not panic as expected",
    b"note: test did not panic as expected at src/lib.rs:7:4\r\n",
    b"\nnote: test did not panic",
    b"\n",
    b"\r\n",
    b"\r",
    b" ",
    b"\t\x0b\x0c",
    "\u{85}\u{a0}".as_bytes(),
    "\u{2028}\u{3000}".as_bytes(),
    "\u{e9}\u{20ac}\u{1f600}".as_bytes(),
    b"\x80",
    b"\xc3",
    b"\xe2\x82",
    b"\xed\xa0\x80",
    b"\xf0\x9f\x98",
    b"\xf4\x90\x80\x80",
    b"\xff",
    b"\0",
];

/// Appends some pieces to a stream. A few of them are cut short or have a wrong byte.
fn push_pieces(generator: &mut Generator, stream: &mut Vec<u8>) {
    for _ in 0..generator.below(12) {
        let piece = *generator.pick(PIECES);
        let start = stream.len();
        match generator.below(12) {
            0 => stream.extend_from_slice(&piece[..generator.below(piece.len())]),
            1 => stream.extend_from_slice(&piece[generator.below(piece.len())..]),
            2 => {
                stream.extend_from_slice(piece);
                stream[start + generator.below(piece.len())] = generator.number() as u8;
            }
            _ => stream.extend_from_slice(piece),
        }
    }
}

/// Makes a stream out of pieces or, more rarely, out of random bytes.
fn fill(generator: &mut Generator, stream: &mut Vec<u8>) {
    stream.clear();
    if generator.one_in(16) {
        let length = generator.below(64);
        stream.extend((0..length).map(|_| generator.number() as u8));
    } else {
        push_pieces(generator, stream);
    }
}

/// Returns the text of a failed comparison: of each stream the length and the last bytes.
fn shown(stdout: Option<&[u8]>, stderr: Option<&[u8]>) -> String {
    let text = |bytes: &[u8]| {
        let end = &bytes[bytes.len().saturating_sub(MOST_SHOWN)..];
        format!("{} bytes, ending with {}", bytes.len(), end.escape_ascii())
    };
    format!("{:?} {:?}", stdout.map(text), stderr.map(text))
}

/// Compares the slice of two streams, and returns its kind.
fn compare_slice(stdout: Option<&[u8]>, stderr: Option<&[u8]>) -> u32 {
    let found = sys::Slice::from(TestOutputErrorSlice::heuristic_extract(stdout, stderr));
    let archived = written(|answer| sys::extract(stdout, stderr, answer));
    assert_eq!(Ok(found), archived, "{}", shown(stdout, stderr));
    found.kind
}

/// Compares the slice of two streams that has at most `limit` bytes.
fn compare_capped(stdout: Option<&[u8]>, stderr: Option<&[u8]>, limit: NonZero<usize>) {
    let found = TestOutputErrorSlice::heuristic_extract_capped(stdout, stderr, limit);
    let archived = written(|answer| sys::extract_capped(stdout, stderr, limit.get(), answer));
    let text = || format!("{limit} {}", shown(stdout, stderr));
    assert_eq!(Ok(found.into()), archived, "{}", text());
}

/// Compares the last head of a stream, and the number of bytes that the search reads.
fn compare_head(stream: &[u8]) -> bool {
    let mut source = CountedBytes::new(stream);
    let head = last_panic_head(&mut source);
    let found = sys::Head::new(head, source.reads());
    let archived = written(|answer| sys::last_head(stream, answer));
    assert_eq!(Ok(found), archived, "{}", stream.escape_ascii());
    found.is_found
}

#[test]
fn generated_streams() {
    let mut generator = Generator::new(SEED);
    let (mut out, mut err) = (Vec::new(), Vec::new());
    let mut kinds = [0; 4];
    for _ in 0..COUNT {
        fill(&mut generator, &mut out);
        fill(&mut generator, &mut err);
        let (stdout, stderr) = match generator.below(8) {
            0 => (None, Some(err.as_slice())),
            1 => (Some(out.as_slice()), None),
            2 => (Some(err.as_slice()), Some(err.as_slice())),
            _ => (Some(out.as_slice()), Some(err.as_slice())),
        };
        kinds[compare_slice(stdout, stderr) as usize] += 1;
        let limit = NonZero::new(generator.below(100)).unwrap_or(NonZero::<usize>::MAX);
        compare_capped(stdout, stderr, limit);
        compare_head(&err);
    }
    assert!(kinds.iter().all(|count| *count > COUNT / 50), "{kinds:?}");
}

/// Returns the outputs of the replay's cases of a kind.
fn replayed(kind: &str) -> impl Iterator<Item = Vec<u8>> {
    REPLAYED.lines().filter_map(move |line| {
        let case = line.strip_prefix(kind)?.strip_prefix(' ')?;
        let (output, _) = case.split_once(' ').unwrap_or((case, ""));
        let digits = output.trim_start_matches('-');
        Some(hex::decode(digits).expect("an output is in hex"))
    })
}

#[test]
fn replayed_outputs() {
    let slices = replayed("extract").map(|output| compare_slice(Some(&output), Some(&output)));
    assert_eq!(slices.count(), 2_090);
    let heads = replayed("heads").map(|output| compare_head(&output));
    assert_eq!(heads.count(), 2_089);
}

#[test]
fn every_character_as_a_digit() {
    let mut digits = 0;
    for character in '\0'..=char::MAX {
        let stream = format!("thread 'a' ({character}) panicked at b");
        digits += usize::from(compare_head(stream.as_bytes()));
        compare_slice(None, Some(stream.as_bytes()));
    }
    assert!(digits > 600, "{digits}");
}

/// Makes a stream whose pieces lie across the edge of two blocks, or close to it.
fn fill_blocks(generator: &mut Generator, stream: &mut Vec<u8>) {
    let mut pieces = Vec::new();
    fill(generator, &mut pieces);
    stream.clear();
    stream.resize(generator.below(2) * EDGES[1] + generator.below(80), b'x');
    stream.extend_from_slice(&pieces);
    let rest = EDGES[generator.below(4)] - generator.below(80);
    stream.resize(stream.len() + rest, b'x');
}

#[test]
fn pieces_near_the_edges_of_blocks() {
    let mut generator = Generator::new(SEED);
    let (mut out, mut err) = (Vec::new(), Vec::new());
    let mut found = 0;
    for _ in 0..1_000 {
        fill_blocks(&mut generator, &mut out);
        fill_blocks(&mut generator, &mut err);
        found += usize::from(compare_slice(Some(&out), Some(&err)) > 0);
        compare_head(&err);
    }
    assert!(found > 100, "{found}");
}
