//! A check's job as the program reads it, its answer, and all that comes before the walk, in Rust: reading and gates.
use crate::gates::{build, read_gate, Refusal};
use crate::sets::{read_end_set, read_set, Set};

pub struct Job {
    pub allowance: u32,
    pub start: Vec<u8>,
    pub circuit: Vec<u8>,
    pub end: Vec<u8>,
}

#[derive(Debug, PartialEq)]
pub enum Verdict {
    Holds(u32),
    Undecided(u32),
    Fails {
        place: u32,
        root: u32,
        word: Vec<u8>,
    },
}

impl Job {
    /// The parts of an input that is well formed.
    pub fn of_input(input: &[u8]) -> Job {
        let number = |at: usize| u32::from_le_bytes(input[at..at + 4].try_into().unwrap());
        assert!(&input[..2] == b"JB");
        let (start, circuit) = (number(6) as usize, number(10) as usize);
        let (start, rest) = input[18..].split_at(start);
        let (circuit, end) = rest.split_at(circuit);
        assert!(end.len() == number(14) as usize);
        Job {
            allowance: number(2),
            start: start.to_vec(),
            circuit: circuit.to_vec(),
            end: end.to_vec(),
        }
    }
}

/// The image after the circuit and the end set, or the refusal.
pub fn image_and_end(job: &Job) -> Result<(Set, Set), Refusal> {
    let refused = |source, place| {
        move |number| Refusal {
            number,
            source,
            place,
        }
    };
    let mut image = read_set(&job.start).map_err(|(number, place)| refused(1, place)(number))?;
    if job.circuit.len() % 6 != 0 || job.circuit.len() > 6 * 4096 {
        return Err(refused(2, 0)(11));
    }
    let mut gates = Vec::with_capacity(job.circuit.len() / 6);
    for (i, record) in job.circuit.chunks_exact(6).enumerate() {
        gates.push(read_gate(record, image.n).map_err(|_| refused(2, i as u32 + 1)(12))?);
    }
    let end = read_end_set(&job.end).map_err(|(number, place)| refused(3, place)(number))?;
    if end.n != image.n {
        return Err(refused(0, 0)(13));
    }
    for (i, gate) in gates.iter().enumerate() {
        image = build(&image, gate).map_err(refused(2, i as u32 + 1))?;
    }
    Ok((image, end))
}

/// The printed line, without its newline.
pub fn line(answer: &Result<Verdict, Refusal>) -> String {
    match answer {
        Ok(Verdict::Holds(count)) => format!("holds {count}"),
        Ok(Verdict::Undecided(count)) => format!("undecided {count}"),
        Ok(Verdict::Fails { place, root, word }) => {
            let choices: String = word.iter().map(|c| format!(" {c}")).collect();
            format!("fails {place} {root}{choices}")
        }
        Err(r) => format!("refused {} {} {}", r.number, r.source, r.place),
    }
}

/// The line of the library's reply (docs/REPLY.md).
pub fn line_of_reply(reply: &[u8; 64], n: u8) -> String {
    let number = |at: usize| u32::from_le_bytes(reply[at..at + 4].try_into().unwrap());
    line(&match reply[0] {
        2 => Ok(Verdict::Holds(number(8))),
        3 => Ok(Verdict::Fails {
            place: number(8),
            root: number(12),
            word: reply[16..17 + n as usize].to_vec(),
        }),
        4 => Ok(Verdict::Undecided(number(8))),
        _ => Err(Refusal {
            number: reply[1],
            source: reply[2],
            place: number(4),
        }),
    })
}
