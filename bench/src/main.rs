//! Times a chain of gates by the proved library and by the same construction in Rust, and checks that both give the same bytes after every gate.
use bench::gates::{build, one_gate_rust, read_gate, Gate};
use bench::library;
use bench::sets::{read_set, write_set, Inner, Leaf, Set};
use std::time::{Duration, Instant};

const QUBITS: usize = 9;
const GATES: usize = 4096;
const ROUNDS: usize = 5;
const OUTPUT_SIZE: usize = 49248;

/// A full binary tree of states: 2^(i-1) on level i. Each inner state goes to its own two children by choice 0, and to the same two by choice 1,
/// so that no gate of the chain makes a second copy of a state. Every leaf state has an amplitude of its own.
fn start_set() -> Set {
    let inner_states = (1 << QUBITS) - 1;
    let inner = (0..inner_states)
        .flat_map(|q: u16| {
            [1, 2].map(|mask| Inner {
                state: q,
                mask,
                left: 2 * q + 1,
                right: 2 * q + 2,
            })
        })
        .collect();
    let leaves = (0..1 << QUBITS)
        .map(|i: i32| Leaf {
            state: inner_states + i as u16,
            mask: 3,
            amplitude: [i + 1, 3 * i - 700, 5 - 7 * i, i * i],
        })
        .collect();
    Set {
        n: QUBITS,
        k: 0,
        levels: (0..=QUBITS).map(|i| 1 << i).collect(),
        inner,
        leaves,
    }
}

/// T, X and CX in turn, round the qubits; the control of CX is the next qubit, and qubit 1 for the last.
fn chain() -> Vec<[u8; 6]> {
    (0..GATES)
        .map(|i| {
            let target = (i / 3 % QUBITS + 1) as u8;
            match i % 3 {
                0 => [b'G', b'T', 7, target, 0, 0],
                1 => [b'G', b'T', 1, target, 0, 0],
                _ => [b'G', b'T', 9, target, target % QUBITS as u8 + 1, 0],
            }
        })
        .collect()
}

/// Both on every set of the chain; the last set's bytes.
fn compared(start: &[u8], chain: &[[u8; 6]]) -> Vec<u8> {
    let mut output = vec![0; OUTPUT_SIZE];
    let mut set = start.to_vec();
    for (i, circuit) in chain.iter().enumerate() {
        let length = library::one_gate(&set, circuit, &mut output)
            .unwrap_or_else(|number| panic!("gate {}: the library refuses with {number}", i + 1));
        let new = one_gate_rust(&set, circuit)
            .unwrap_or_else(|refusal| panic!("gate {}: Rust refuses: {refusal:?}", i + 1));
        assert!(
            output[..length] == new[..],
            "gate {}: the bytes differ",
            i + 1
        );
        assert!(
            new[6..12] == start[6..12],
            "gate {}: the set changed its size",
            i + 1
        );
        set = new;
    }
    set
}

fn by_library(start: &[u8], chain: &[[u8; 6]], last: &[u8]) -> Duration {
    let (mut set, mut output) = (vec![0; OUTPUT_SIZE], vec![0; OUTPUT_SIZE]);
    set[..start.len()].copy_from_slice(start);
    let mut length = start.len();
    let begin = Instant::now();
    for circuit in chain {
        length = library::one_gate(&set[..length], circuit, &mut output).unwrap();
        std::mem::swap(&mut set, &mut output);
    }
    let time = begin.elapsed();
    assert!(set[..length] == *last);
    time
}

fn by_rust(start: &[u8], chain: &[[u8; 6]], last: &[u8]) -> Duration {
    let mut set = start.to_vec();
    let begin = Instant::now();
    for circuit in chain {
        set = one_gate_rust(&set, circuit).unwrap();
    }
    let time = begin.elapsed();
    assert!(set == last);
    time
}

fn by_rust_in_memory(start: &[u8], chain: &[[u8; 6]], last: &[u8]) -> Duration {
    let mut set = read_set(start).unwrap();
    let gates: Vec<Gate> = chain
        .iter()
        .map(|circuit| read_gate(circuit, QUBITS).unwrap())
        .collect();
    let begin = Instant::now();
    for gate in &gates {
        set = build(&set, gate).unwrap();
    }
    let time = begin.elapsed();
    assert!(write_set(&set) == last);
    time
}

fn main() {
    let set = start_set();
    let start = write_set(&set);
    let states: u16 = set.levels.iter().sum();
    println!(
        "set: n {}, {} states, {} inner, {} leaves, {} bytes",
        set.n,
        states,
        set.inner.len(),
        set.leaves.len(),
        start.len()
    );
    let chain = chain();
    let last = compared(&start, &chain);
    println!(
        "chain: {} gates, T, X and CX round the qubits; the same bytes from both after each",
        chain.len()
    );

    type Way = fn(&[u8], &[[u8; 6]], &[u8]) -> Duration;
    let ways: [(&str, Way); 3] = [
        ("library, bytes to bytes", by_library),
        ("Rust, bytes to bytes", by_rust),
        ("Rust, set kept in memory", by_rust_in_memory),
    ];
    let mut times: [Vec<Duration>; 3] = Default::default();
    for _ in 0..ROUNDS {
        for (found, (_, way)) in times.iter_mut().zip(&ways) {
            found.push(way(&start, &chain, &last));
        }
    }
    println!("time of the whole chain in ms, {ROUNDS} rounds in turn: least, median, most; one gate in µs by the median");
    for ((name, _), found) in ways.iter().zip(&mut times) {
        found.sort();
        let ms = |d: Duration| d.as_secs_f64() * 1e3;
        let (least, median, most) = (ms(found[0]), ms(found[ROUNDS / 2]), ms(found[ROUNDS - 1]));
        println!(
            "{name:26} {least:9.1} {median:9.1} {most:9.1} {:9.1}",
            median * 1e3 / chain.len() as f64
        );
    }
}
