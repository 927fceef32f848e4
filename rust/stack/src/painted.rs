//! A stack filled with a pattern: what a call has written there is what it has used.

use std::arch::asm;
use std::marker::PhantomData;

use plan::Record;

/// A function of any arguments.
pub type Function = unsafe extern "C" fn();

/// The arguments of a call, as C hands them over on x86-64: six words in registers, the rest on the
/// stack. They hold what their pointers lead to.
#[derive(Debug, Default)]
pub struct Arguments<'a> {
    registers: Vec<u64>,
    stack: Vec<u64>,
    held: PhantomData<&'a mut [u32]>,
}

impl<'a> Arguments<'a> {
    /// One number or one pointer.
    pub fn word(&mut self, word: u64) {
        if self.registers.len() < 6 {
            self.registers.push(word);
        } else {
            self.stack.push(word);
        }
    }

    /// A slice that is read: pointer and length.
    pub fn read<T>(&mut self, slice: &'a [T]) {
        self.word(slice.as_ptr() as u64);
        self.word(slice.len() as u64);
    }

    /// A slice that is lent to be written: pointer and length.
    pub fn write<T>(&mut self, slice: &'a mut [T]) {
        self.word(slice.as_mut_ptr() as u64);
        self.word(slice.len() as u64);
    }

    /// One record: as a struct of more than 16 bytes it goes to the stack whole.
    pub fn record(&mut self, record: Record) {
        let two = |low: u32, high: u32| u64::from(low) | u64::from(high) << 32;
        self.stack.push(two(record.kind, record.location.0));
        self.stack.push(two(record.parent.0, record.from));
        self.stack.push(two(record.value, 0));
    }
}

/// What came of a call.
#[derive(Clone, Copy, Debug, PartialEq, Eq)]
pub struct Called {
    /// What it handed back in a register.
    pub result: u64,
    /// The bytes of stack that it used below its arguments, the return address included.
    pub bytes: usize,
}

/// A stack filled with a pattern.
#[derive(Debug)]
pub struct Painted {
    words: Vec<u64>,
}

const PATTERN: u64 = 0x5ca1_ab1e_0dd5_7ac4;

/// As much as a thread usually has: 8 MiB.
const WORDS: usize = 1 << 20;

impl Painted {
    /// A stack that nothing has used.
    pub fn unused() -> Painted {
        Painted { words: vec![PATTERN; WORDS] }
    }

    /// Calls the function on this stack.
    ///
    /// # Safety
    ///
    /// The function takes just these arguments, does not unwind, and stays within the stack.
    pub unsafe fn call(&mut self, function: Function, arguments: Arguments<'_>) -> Called {
        let mut registers = [0; 6];
        registers[..arguments.registers.len()].copy_from_slice(&arguments.registers);
        // where the stack pointer is at the call: at the first argument, on a multiple of 16 bytes
        let mut top = self.words.len() - arguments.stack.len();
        if !(self.words.as_ptr() as usize + 8 * top).is_multiple_of(16) {
            top -= 1;
        }
        self.words[top..][..arguments.stack.len()].copy_from_slice(&arguments.stack);
        let result;
        unsafe {
            asm!(
                "mov r12, rsp",
                "mov rsp, {top}",
                "call {function}",
                "mov rsp, r12",
                top = in(reg) self.words.as_mut_ptr().add(top),
                function = in(reg) function,
                in("rdi") registers[0],
                in("rsi") registers[1],
                in("rdx") registers[2],
                in("rcx") registers[3],
                in("r8") registers[4],
                in("r9") registers[5],
                lateout("rax") result,
                out("r12") _,
                clobber_abi("C"),
            );
        }
        let used = self.words.iter().position(|&word| word != PATTERN).unwrap_or(top).min(top);
        assert!(used > 0, "the call used the whole stack");
        self.words[used..].fill(PATTERN);
        Called { result, bytes: 8 * (top - used) }
    }
}

#[cfg(test)]
mod tests {
    use super::*;
    use plan::OldRow;
    use std::hint::black_box;
    use std::mem::transmute;

    extern "C" fn nothing() {}

    extern "C" fn array() {
        black_box(&[black_box(7_u32); 1_024]);
    }

    #[rustfmt::skip]
    extern "C" fn digits(
        a: u64, record: Record, b: u64, c: u64, d: u64, e: u64, f: u64, g: u64, h: u64,
    ) -> u64 {
        let record = [record.kind, record.location.0, record.parent.0, record.from, record.value];
        let digits = [a, b, c, d, e, f, g, h].into_iter().chain(record.map(u64::from));
        digits.fold(0, |number, digit| 10 * number + digit)
    }

    #[test]
    fn a_call_that_does_nothing_uses_its_return_address() {
        let called = unsafe { Painted::unused().call(nothing, Arguments::default()) };
        assert_eq!(called.bytes, 8);
    }

    #[test]
    fn an_array_shows_and_leaves_no_trace() {
        let mut stack = Painted::unused();
        let called = unsafe { stack.call(array, Arguments::default()) };
        assert!((4_096 + 8..8_192).contains(&called.bytes), "{called:?}");
        assert_eq!(unsafe { stack.call(nothing, Arguments::default()) }.bytes, 8);
    }

    #[test]
    fn arguments_arrive() {
        let record = Record { kind: 5, location: OldRow(4), parent: OldRow(3), from: 2, value: 1 };
        let mut arguments = Arguments::default();
        arguments.word(1);
        arguments.record(record);
        (2..=8).for_each(|number| arguments.word(number));
        let function: Function = unsafe { transmute(digits as *const ()) };
        let called = unsafe { Painted::unused().call(function, arguments) };
        assert_eq!(called.result, 1_234_567_854_321);
    }
}
