//! The checker's C library from Rust: [`check`] and [`one_gate`] on byte slices, [`closing`] and [`spell`] on numbers of Clifford elements. Calls are reentrant; one needs about 1 MiB of stack,
//! and a thread of Rust's standard library has 2 MiB by default.

/// Size of a reply.
pub const REPLY_SIZE: usize = 64;
/// Size of the longest set file.
pub const OUTPUT_SIZE: usize = 49_248;
/// Length of the longest word of an element.
pub const SPELL_SIZE: usize = 6;

extern "C" {
    fn zhargutai_check(
        start: *const u8, start_len: usize, circuit: *const u8, circuit_len: usize, end: *const u8, end_len: usize,
        allowance: u32, reply: *mut u8, reply_len: usize,
    ) -> u32;
    fn zhargutai_one_gate(
        set: *const u8, set_len: usize, circuit: *const u8, circuit_len: usize, output: *mut u8, output_len: usize,
        reply: *mut u8, reply_len: usize,
    ) -> u32;
    fn zhargutai_closing(sequence: *const u8, sequence_len: usize, reply: *mut u8, reply_len: usize) -> u32;
    fn zhargutai_spell(element: u32, output: *mut u8, output_len: usize, reply: *mut u8, reply_len: usize) -> u32;
}

/// Why a job was refused: docs/USE.md has the numbers.
#[derive(Debug, Clone, Copy, PartialEq, Eq)]
pub struct Refusal {
    pub number: u8,
    pub source: u8,
    pub place: u32,
}

/// What a check answers.
#[derive(Debug, Clone, PartialEq, Eq)]
pub enum Verdict {
    /// Every start ends well; so many there are. 0: the start set has no state.
    Holds(u32),
    /// The start of this place, from 1, is the first that does not; with its root and its n + 1 choices.
    Fails { place: u32, root: u32, word: Vec<u8> },
    /// So many end well, and there are more.
    Undecided(u32),
}

fn number_at(reply: &[u8; REPLY_SIZE], at: usize) -> u32 {
    u32::from_le_bytes([reply[at], reply[at + 1], reply[at + 2], reply[at + 3]])
}

fn refusal(reply: &[u8; REPLY_SIZE]) -> Refusal {
    Refusal { number: reply[1], source: reply[2], place: number_at(reply, 4) }
}

/// Is every state of the start set, carried through the circuit, a state of the end set? At most `allowance` starts are examined.
pub fn check(start: &[u8], circuit: &[u8], end: &[u8], allowance: u32) -> Result<Verdict, Refusal> {
    let mut reply = [0; REPLY_SIZE];
    // Each pointer is valid for the length beside it and not null, and the reply overlaps nothing.
    unsafe {
        zhargutai_check(
            start.as_ptr(), start.len(), circuit.as_ptr(), circuit.len(), end.as_ptr(), end.len(), allowance, reply.as_mut_ptr(), REPLY_SIZE,
        )
    };
    let count = number_at(&reply, 8);
    match reply[0] {
        2 => Ok(Verdict::Holds(count)),
        3 => Ok(Verdict::Fails { place: count, root: number_at(&reply, 12), word: reply[16..17 + start[3] as usize].to_vec() }),
        4 => Ok(Verdict::Undecided(count)),
        _ => Err(refusal(&reply)),
    }
}

/// The set file that one gate of 6 bytes makes of a set file.
pub fn one_gate(set: &[u8], gate: &[u8]) -> Result<Vec<u8>, Refusal> {
    let (mut reply, mut output) = ([0; REPLY_SIZE], vec![0; OUTPUT_SIZE]);
    unsafe {
        zhargutai_one_gate(
            set.as_ptr(), set.len(), gate.as_ptr(), gate.len(), output.as_mut_ptr(), OUTPUT_SIZE, reply.as_mut_ptr(), REPLY_SIZE,
        )
    };
    if reply[0] == 0 {
        return Err(refusal(&reply));
    }
    output.truncate(number_at(&reply, 8) as usize);
    Ok(output)
}

/// The Clifford element, 0 to 23, that brings a sequence of them, the first played first, to the identity.
pub fn closing(sequence: &[u8]) -> Result<u8, Refusal> {
    let mut reply = [0; REPLY_SIZE];
    unsafe { zhargutai_closing(sequence.as_ptr(), sequence.len(), reply.as_mut_ptr(), REPLY_SIZE) };
    if reply[0] == 0 {
        return Err(refusal(&reply));
    }
    Ok(number_at(&reply, 8) as u8)
}

/// A Clifford element as gates of H and S, such as "HSSH", the first played first.
pub fn spell(element: u32) -> Result<String, Refusal> {
    let (mut reply, mut output) = ([0; REPLY_SIZE], [0; SPELL_SIZE]);
    unsafe { zhargutai_spell(element, output.as_mut_ptr(), SPELL_SIZE, reply.as_mut_ptr(), REPLY_SIZE) };
    if reply[0] == 0 {
        return Err(refusal(&reply));
    }
    Ok(output[..number_at(&reply, 8) as usize].iter().map(|code| if *code == 4 { 'H' } else { 'S' }).collect())
}
