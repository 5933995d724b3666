//! The calls of an earlier library, beside those of the library itself: what the benchmarks call *before*. `build.rs` says which. One
//! from before R-8 has no revision in its registers and its replay is told none; it is called so, and its logs are of revision 1.
use kixombu::exports::{Code, Memory, MemoryView};

/// Each in the shape of its name in `kixombu::exports`.
#[derive(Clone, Copy)]
pub struct Calls {
    pub step: fn(MutWords, MutWords, Code, Memory, &mut [u8]) -> u64,
    pub run: fn(MutWords, MutWords, u64, Code, Memory) -> u64,
    pub trace_execution: fn(MutWords, MutWords, u64, Code, Memory, &mut [u8]) -> u64,
    pub helper_variables: fn(Words, MutWords, Code, MemoryView) -> u64,
    pub replay: Replay,
}

pub type Replay = fn(MutWords, &[u8], u64, u64, u64, MutWords, MutWords, MutWords) -> u64;

type Words<'a> = &'a [u64];
type MutWords<'a> = &'a mut [u64];

/// None where no earlier library was named at the build.
#[cfg(not(before))]
pub const CALLS: Option<Calls> = None;
#[cfg(before)]
pub const CALLS: Option<Calls> = Some(linked::CALLS);

#[cfg(before)]
mod linked {
    use super::{Calls, Code, Memory, MemoryView, MutWords, Words};
    use kixombu::exports::register;

    pub const CALLS: Calls = Calls { step, run, trace_execution, helper_variables, replay };

    /// The registers that the library has: all, or those but the revision, which stands last.
    const REGISTERS: usize = if cfg!(since_r_8) { register::ALL } else { register::REVISION };

    fn is_known(revision: u64) -> bool {
        cfg!(since_r_8) || revision == 1
    }

    // A call with code and memory: on the registers and one slice more, with the number that stands in front of code and the bytes
    // that stand behind memory, where it has them. Words are pointers to what it may change, or only reads.
    macro_rules! call {
        ($name:ident, $export:ident, $registers:ty, $memory:ty, $words:ty, $pointer:ident, [$($number:ident)?], [$($bytes:ident)?]) => {
            #[rustfmt::skip]
            fn $name(registers: $registers, slice: MutWords, $($number: u64,)? c: Code, m: $memory, $($bytes: &mut [u8])?) -> u64 {
                extern "C" {
                    fn $export(
                        registers: $words, _: usize, slice: *mut u64, _: usize, $($number: u64,)?
                        opcodes: *const u64, _: usize, arguments: *const u64, _: usize, public: *const u64, _: usize,
                        secret: *const u64, _: usize, digests: *const u64, _: usize,
                        op_stack: $words, _: usize, origins: $words, _: usize, destinations: $words, _: usize,
                        addresses: $words, _: usize, values: $words, _: usize, output: $words, _: usize,
                        $($bytes: *mut u8, _: usize)?
                    ) -> u64;
                }
                assert!(is_known(registers[register::REVISION]), "a library from before R-8 writes logs of revision 1 alone");
                // SAFETY: each pointer goes with the length of its slice, which is borrowed for the call; the export asks for nothing else
                unsafe {
                    $export(
                        registers.$pointer(), REGISTERS, slice.as_mut_ptr(), slice.len(), $($number,)?
                        c.opcodes.as_ptr(), c.opcodes.len(), c.arguments.as_ptr(), c.arguments.len(), c.public.as_ptr(), c.public.len(),
                        c.secret.as_ptr(), c.secret.len(), c.digests.as_ptr(), c.digests.len(),
                        m.op_stack.$pointer(), m.op_stack.len(), m.origins.$pointer(), m.origins.len(),
                        m.destinations.$pointer(), m.destinations.len(), m.addresses.$pointer(), m.addresses.len(),
                        m.values.$pointer(), m.values.len(), m.output.$pointer(), m.output.len(),
                        $($bytes.as_mut_ptr(), $bytes.len())?
                    )
                }
            }
        };
    }

    call!(step, before_triton_step, MutWords, Memory, *mut u64, as_mut_ptr, [], [calls]);
    call!(run, before_triton_run, MutWords, Memory, *mut u64, as_mut_ptr, [budget], []);
    call!(trace_execution, before_triton_trace_execution, MutWords, Memory, *mut u64, as_mut_ptr, [budget], [log]);
    call!(helper_variables, before_triton_helper_variables, Words, MemoryView, *const u64, as_ptr, [], []);

    #[rustfmt::skip]
    #[allow(clippy::too_many_arguments)]
    fn replay(
        answer: MutWords, log: &[u8], revision: u64, clock: u64, cells: u64, addresses: MutWords, values: MutWords, words: MutWords,
    ) -> u64 {
        extern "C" {
            fn before_triton_replay(
                answer: *mut u64, _: usize, log: *const u8, _: usize, #[cfg(since_r_8)] revision: u64, clock: u64, cells: u64,
                addresses: *mut u64, _: usize, values: *mut u64, _: usize, words: *mut u64, _: usize,
            ) -> u64;
        }
        assert!(is_known(revision), "a library from before R-8 reads logs of revision 1 alone");
        // SAFETY: as above
        unsafe {
            before_triton_replay(
                answer.as_mut_ptr(), answer.len(), log.as_ptr(), log.len(), #[cfg(since_r_8)] revision, clock, cells,
                addresses.as_mut_ptr(), addresses.len(), values.as_mut_ptr(), values.len(), words.as_mut_ptr(), words.len(),
            )
        }
    }
}
