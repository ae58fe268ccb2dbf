/* The C interface of the checker: what a caller lends, what comes back, and in which bytes.
 *
 * Link libzhargutai (`make install`, then `pkg-config --cflags --libs zhargutai`), or the archive that `tools/build library`
 * writes, target/staticlib/librelease.a (x86-64 Linux).
 *
 * Calls are reentrant: the library has no global data, takes no memory from the heap and keeps nothing from one call to the
 * next. Any number of threads may call it at the same time, each with its own lent buffers.
 *
 * A call takes its work buffers from the stack of the thread that makes it: see ZHARGUTAI_STACK_SIZE.
 *
 * A byte buffer is passed as a pointer and then its length. A pointer must be valid for that many bytes, and it must not
 * be null, not even for a length of 0. The lent buffers (output, reply) must not overlap each other or an input. The
 * contents of the inputs are free: whatever the bytes are, the answer is a reply.
 */
#ifndef ZHARGUTAI_H
#define ZHARGUTAI_H

#include <stddef.h>
#include <stdint.h>

#ifdef __cplusplus
extern "C" {
#endif

/* Version of this interface. */
#define ZHARGUTAI_VERSION "1.0.0"
#define ZHARGUTAI_VERSION_MAJOR 1
#define ZHARGUTAI_VERSION_MINOR 0

/* Stack that a thread needs for a call, in bytes, with room for the caller (tests/stack.sh measures about half of it). The main
 * thread has 8 MiB by default; give this much to a thread of your own (pthread_attr_setstacksize). With less, a call that runs
 * over the end meets the guard page: the process ends by SIGSEGV, and nothing outside the stack is written. */
#define ZHARGUTAI_STACK_SIZE 1048576

/* Size of a reply. A shorter reply buffer gives 17; of a longer one the further bytes stay. */
#define ZHARGUTAI_REPLY_SIZE 64

/* Size that the output of one gate needs: the longest set file. A shorter output gives 17; of a longer one the further bytes stay. */
#define ZHARGUTAI_OUTPUT_SIZE 49248

/* Length of a circuit of one gate: "GT", code, target, control, zero. */
#define ZHARGUTAI_GATE_SIZE 6

/* Size that the output of a spelled element needs: the longest word. A shorter output gives 17; of a longer one the further bytes stay. */
#define ZHARGUTAI_SPELL_SIZE 6

/* The most numbers in a sequence of Clifford elements, and how many elements there are, from 0 on. */
#define ZHARGUTAI_SEQUENCE_MOST 4096
#define ZHARGUTAI_ELEMENTS 24

/* Codes of gates. Qubits count from 1. The control is 0 for codes 1 to 8, else a qubit other than the target. */
#define ZHARGUTAI_GATE_X 1
#define ZHARGUTAI_GATE_Y 2
#define ZHARGUTAI_GATE_Z 3
#define ZHARGUTAI_GATE_H 4
#define ZHARGUTAI_GATE_S 5
#define ZHARGUTAI_GATE_SDG 6
#define ZHARGUTAI_GATE_T 7
#define ZHARGUTAI_GATE_TDG 8
#define ZHARGUTAI_GATE_CX 9
#define ZHARGUTAI_GATE_CZ 10

/* One gate as an initializer: static const uint8_t h[] = {ZHARGUTAI_GATE(ZHARGUTAI_GATE_H, 1, 0)}; */
#define ZHARGUTAI_GATE(code, target, control) 'G', 'T', (code), (target), (control), 0

/* The reply (docs/REPLY.md). Numbers of more than one byte are little-endian.
 *
 *   byte  0        kind, one of those below
 *   byte  1        number of the refusal, 0 if nothing was refused
 *   byte  2        its source: 1 start set, 2 circuit, 3 end set, 0 for 13 and 17
 *   byte  3        zero
 *   bytes 4 to 7   its place: the gate, from 1, for 12, 14, 15 and 16; the record's number in the set file, HD being 0,
 *                  for 6, 81 to 84, 9 and 10; else 0
 *   bytes 8 to 11  count; for `made` the length of the new set, the closing element or the number of letters; 0 for a refusal
 *   bytes 12 to 15 root of the first start that fails; else 0
 *   bytes 16 to 36 its word in 21 places, one choice each; else 0
 *   bytes 37 to 63 zero
 */
#define ZHARGUTAI_REPLY_KIND 0
#define ZHARGUTAI_REPLY_NUMBER 1
#define ZHARGUTAI_REPLY_SOURCE 2
#define ZHARGUTAI_REPLY_PLACE 4
#define ZHARGUTAI_REPLY_COUNT 8
#define ZHARGUTAI_REPLY_ROOT 12
#define ZHARGUTAI_REPLY_WORD 16

/* Kinds of reply. */
#define ZHARGUTAI_REFUSED 0
#define ZHARGUTAI_MADE 1
#define ZHARGUTAI_HOLDS 2
#define ZHARGUTAI_FAILS 3
#define ZHARGUTAI_UNDECIDED 4

/* Applies one gate to a set of states. The new set has the same roots and words: each root and word gives the state that the
 * gate's matrix makes of its old state, or gives none as before.
 *
 *   set      a set file (source 1 of a refusal)
 *   circuit  exactly one gate, ZHARGUTAI_GATE_SIZE bytes (source 2); another length is refused with 11
 *   output   lent, at least ZHARGUTAI_OUTPUT_SIZE bytes
 *   reply    lent, at least ZHARGUTAI_REPLY_SIZE bytes
 *
 * Returns the number of the refusal, 0 if nothing was refused. The reply says the same and more.
 *
 * Nothing refused: the kind is ZHARGUTAI_MADE, the new set is at the front of output, its length is the reply's count,
 * and all further bytes of output stay as they were.
 *
 * Refused: the kind is ZHARGUTAI_REFUSED and every byte of output stays. The numbers are 17 for a short output, tested
 * before anything else; 1 to 7, 81 to 84, 9 and 10 for the set; 11 and 12 for the circuit; then 15 (H at k = 64), 14 (the
 * result is over 1,024 states, 2,048 inner transitions or 1,024 leaf transitions) and 16 (a coefficient would leave its
 * range), in this order. 81 to 84 are for the earliest TR record at fault: its state, its left child, its right child, its mask.
 *
 * A reply buffer under ZHARGUTAI_REPLY_SIZE bytes: 17 is returned and nothing is written anywhere.
 */
uint32_t zhargutai_one_gate(const uint8_t *set, size_t set_len,
                            const uint8_t *circuit, size_t circuit_len,
                            uint8_t *output, size_t output_len,
                            uint8_t *reply, size_t reply_len);

/* Checks a circuit: is every state of the start set, carried through the circuit's gates, a state of the end set?
 *
 *   start      a set file (source 1 of a refusal)
 *   circuit    up to 4,096 gates of ZHARGUTAI_GATE_SIZE bytes each (source 2); a length of 0 is a circuit too
 *   end        a set file of the same number of qubits, at most 128 states (source 3)
 *   allowance  the most members of the start set that are examined, 0 to 4,294,967,295
 *   reply      lent, at least ZHARGUTAI_REPLY_SIZE bytes
 *
 * The members are examined in their order: by root, then by word. Each counts, also where two give the same state.
 *
 * Returns the number of the refusal, 0 if nothing was refused. The reply says the same and more.
 *
 * Nothing refused: the kind is one of
 *
 *   ZHARGUTAI_HOLDS      all members pass; the count is their number, 0 if there is none
 *   ZHARGUTAI_FAILS      a member does not pass; the count is the place of the first such, from 1, with its root and word
 *   ZHARGUTAI_UNDECIDED  as many as allowed passed, and there are more; the count is the allowance
 *
 * Refused: the kind is ZHARGUTAI_REFUSED. The numbers are 1 to 7, 81 to 84, 9 and 10 for the start set, as above; 11 and 12
 * for the circuit, whose qubits are held to the start set; the start set's numbers for the end set; 13 (source 0) for an end
 * set of another number of qubits; then gate by gate 15, 14 and 16 as above, with source 2. All of these come before the first
 * member, whatever the allowance.
 *
 * A reply buffer under ZHARGUTAI_REPLY_SIZE bytes: 17 is returned and nothing is written. There is no other 17: the work
 * buffers are the entry's own, on the caller's stack (tests/stack.sh measures them).
 */
uint32_t zhargutai_check(const uint8_t *start, size_t start_len,
                         const uint8_t *circuit, size_t circuit_len,
                         const uint8_t *end, size_t end_len,
                         uint32_t allowance,
                         uint8_t *reply, size_t reply_len);

/* Benchmark sequences: the 24 Clifford elements of one qubit, numbered 0 to 23 by the axes that X and Z go to (docs/USE.md has them as a table).
 * The identity is 2, S is 10, H is 16, Z is 6.
 *
 * Gives the element that brings a sequence back to the identity.
 *
 *   sequence  one number to a byte, the first played first; at most ZHARGUTAI_SEQUENCE_MOST numbers (source 2 of a refusal); a length of 0 is one too
 *   reply     lent, at least ZHARGUTAI_REPLY_SIZE bytes
 *
 * Returns the number of the refusal, 0 if nothing was refused. The reply says the same and more.
 *
 * Nothing refused: the kind is ZHARGUTAI_MADE and the count is the closing element. The sequence's words and then that element's, as gates of one
 * qubit, return every state to itself times one power of w (the eighth root of 1).
 *
 * Refused: the kind is ZHARGUTAI_REFUSED. The numbers are 23 for a sequence that is too long, then 22 for a number over 23.
 *
 * A reply buffer under ZHARGUTAI_REPLY_SIZE bytes: 17 is returned and nothing is written.
 */
uint32_t zhargutai_closing(const uint8_t *sequence, size_t sequence_len,
                           uint8_t *reply, size_t reply_len);

/* Spells an element in H and S gates: the shortest word, and of several the one with H before S at the first letter in which they differ.
 *
 *   element  its number
 *   output   lent, at least ZHARGUTAI_SPELL_SIZE bytes
 *   reply    lent, at least ZHARGUTAI_REPLY_SIZE bytes
 *
 * Returns the number of the refusal, 0 if nothing was refused. The reply says the same and more.
 *
 * Nothing refused: the kind is ZHARGUTAI_MADE, the word is at the front of output, one code to a letter, 4 for H and 5 for S, the first played first;
 * its length is the reply's count, 0 for the identity, and all further bytes of output stay as they were.
 *
 * Refused: the kind is ZHARGUTAI_REFUSED and every byte of output stays. The numbers are 17 for a short output, then 22 (source 2) for a number
 * over 23.
 *
 * A reply buffer under ZHARGUTAI_REPLY_SIZE bytes: 17 is returned and nothing is written anywhere.
 */
uint32_t zhargutai_spell(uint32_t element,
                         uint8_t *output, size_t output_len,
                         uint8_t *reply, size_t reply_len);

/* What a reply says. Each reads a reply of ZHARGUTAI_REPLY_SIZE bytes. */
static inline uint32_t zhargutai_u32(const uint8_t *b) {
    return (uint32_t)b[0] | (uint32_t)b[1] << 8 | (uint32_t)b[2] << 16 | (uint32_t)b[3] << 24;
}

/* One of the kinds above. */
static inline unsigned zhargutai_kind(const uint8_t *reply) { return reply[ZHARGUTAI_REPLY_KIND]; }

/* Number, source and place of a refusal; 0 if nothing was refused. */
static inline unsigned zhargutai_number(const uint8_t *reply) { return reply[ZHARGUTAI_REPLY_NUMBER]; }
static inline unsigned zhargutai_source(const uint8_t *reply) { return reply[ZHARGUTAI_REPLY_SOURCE]; }
static inline uint32_t zhargutai_place(const uint8_t *reply) { return zhargutai_u32(reply + ZHARGUTAI_REPLY_PLACE); }

/* Starts that hold, the place of the first that fails, starts examined, or the length of a new set. */
static inline uint32_t zhargutai_count(const uint8_t *reply) { return zhargutai_u32(reply + ZHARGUTAI_REPLY_COUNT); }

/* Root of the first start that fails, and its choice on a level, 1 to n + 1. */
static inline uint32_t zhargutai_root(const uint8_t *reply) { return zhargutai_u32(reply + ZHARGUTAI_REPLY_ROOT); }
static inline unsigned zhargutai_choice(const uint8_t *reply, unsigned level) { return reply[ZHARGUTAI_REPLY_WORD + level - 1]; }

#ifdef __cplusplus
}
#endif

#endif
