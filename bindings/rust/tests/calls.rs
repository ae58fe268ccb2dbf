//! The Rust binding: verdicts, refusals and gates, on the job of crates/zhargutai.
use zhargutai::{check, closing, one_gate, spell, Refusal, Verdict};

const JOB: &[u8] = include_bytes!("../../../crates/zhargutai/stdin");

fn parts() -> (&'static [u8], &'static [u8], &'static [u8]) {
    let length = |at: usize| u32::from_le_bytes(JOB[at..at + 4].try_into().unwrap()) as usize;
    let (start, rest) = JOB[18..].split_at(length(6));
    let (circuit, end) = rest.split_at(length(10));
    (start, circuit, end)
}

#[test]
fn verdicts() {
    let (start, circuit, end) = parts();
    assert_eq!(check(start, circuit, end, 4), Ok(Verdict::Holds(4)));
    assert_eq!(check(start, circuit, end, 3), Ok(Verdict::Undecided(3)));
    assert_eq!(check(start, &circuit[..6], end, 4), Ok(Verdict::Fails { place: 1, root: 0, word: vec![0, 0, 0] }));
}

#[test]
fn refusals() {
    let (start, circuit, end) = parts();
    assert_eq!(check(start, &circuit[1..], end, 4), Err(Refusal { number: 11, source: 2, place: 0 }));
    assert_eq!(check(&[], &[], &[], 0), Err(Refusal { number: 1, source: 1, place: 0 }));
    assert_eq!(one_gate(start, &[]), Err(Refusal { number: 11, source: 2, place: 0 }));
}

#[test]
fn gate_by_gate_is_the_circuit() {
    let (start, circuit, end) = parts();
    let carried = circuit.chunks(6).fold(start.to_vec(), |set, gate| one_gate(&set, gate).unwrap());
    assert_eq!(check(&carried, &[], end, 4), Ok(Verdict::Holds(4)));
}

#[test]
fn sequences() {
    assert_eq!((closing(&[10, 16, 22]), spell(3), spell(2)), (Ok(3), Ok("HSSH".into()), Ok("".into())));
    assert_eq!((closing(&[24]), spell(24)), (Err(Refusal { number: 22, source: 2, place: 0 }), Err(Refusal { number: 22, source: 2, place: 0 })));
}

#[test]
fn threads() {
    let counts: Vec<_> = (0..8).map(|_| std::thread::spawn(|| { let (s, c, e) = parts(); check(s, c, e, 9) })).map(|t| t.join().unwrap()).collect();
    assert!(counts.iter().all(|v| *v == Ok(Verdict::Holds(4))));
}
