//! The proved library's two entries, called with slices.

const REPLY_SIZE: usize = 64;

extern "C" {
    fn zhargutai_one_gate(
        set: *const u8,
        set_len: usize,
        circuit: *const u8,
        circuit_len: usize,
        output: *mut u8,
        output_len: usize,
        reply: *mut u8,
        reply_len: usize,
    ) -> u32;

    fn zhargutai_check(
        start: *const u8,
        start_len: usize,
        circuit: *const u8,
        circuit_len: usize,
        end: *const u8,
        end_len: usize,
        allowance: u32,
        reply: *mut u8,
        reply_len: usize,
    ) -> u32;
}

/// The one-gate job: the length of the new set at the front of output, or the number of the refusal.
pub fn one_gate(set: &[u8], circuit: &[u8], output: &mut [u8]) -> Result<usize, u32> {
    let mut reply = [0; REPLY_SIZE];
    // SAFETY: each pointer comes with its own slice's length, and the two lent slices are borrowed for themselves alone.
    let number = unsafe {
        zhargutai_one_gate(
            set.as_ptr(),
            set.len(),
            circuit.as_ptr(),
            circuit.len(),
            output.as_mut_ptr(),
            output.len(),
            reply.as_mut_ptr(),
            reply.len(),
        )
    };
    match number {
        0 => Ok(u32::from_le_bytes(reply[8..12].try_into().unwrap()) as usize),
        _ => Err(number),
    }
}

/// The check: the bytes of its reply.
pub fn check(start: &[u8], circuit: &[u8], end: &[u8], allowance: u32) -> [u8; REPLY_SIZE] {
    let mut reply = [0; REPLY_SIZE];
    // SAFETY: as above; the reply is the only lent slice.
    unsafe {
        zhargutai_check(
            start.as_ptr(),
            start.len(),
            circuit.as_ptr(),
            circuit.len(),
            end.as_ptr(),
            end.len(),
            allowance,
            reply.as_mut_ptr(),
            reply.len(),
        );
    }
    reply
}
