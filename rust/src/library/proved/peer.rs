//! The library, called by a peer: the x86-64 program of `peer/peer.c`, which says there how
//! requests and answers look. Where the processor is another, the toolchain's emulator runs it.

use super::Function;
use crate::library::exports::MEASURE_OP;
use crate::library::kit::Kit;
use crate::second::values::*;
use std::cell::RefCell;
use std::io::{BufReader, Error, Read, Write};
use std::mem::MaybeUninit;
use std::path::Path;
use std::process::{Child, ChildStdout, Stdio};
use std::slice;

#[cfg(not(all(target_endian = "little", target_pointer_width = "64")))]
compile_error!("values cross to the peer as they are, little end first, lengths of 8 bytes");

include!(concat!(env!("OUT_DIR"), "/peer.rs"));

/// The stack that a call took, in bytes: the values that the C ABI passes in memory, the return
/// address, and all below it. The place of an answer is the caller's. And the code that it answered.
#[repr(C)]
#[derive(Clone, Copy, PartialEq, Eq, Debug)]
pub struct Measured {
    pub used: u32,
    pub code: u32,
}

/// A call on a stack of its own, which was filled with a pattern: what no longer holds it was used.
pub struct Measuring {
    function: Function,
    in_memory: Vec<u8>,
    registers: Vec<u8>,
    count: u8,
}

impl Measuring {
    pub fn of(function: Function) -> Measuring {
        Measuring {
            function,
            in_memory: Vec::new(),
            registers: Vec::new(),
            count: 0,
        }
    }

    /// The address of a place for an answer too large for registers; comes first.
    pub fn place(self) -> Measuring {
        self.register(2, &[])
    }

    pub fn number(self, number: u64) -> Measuring {
        self.register(0, &number.to_le_bytes())
    }

    /// The address of these bytes, and their length.
    pub fn slice(self, bytes: &[u8]) -> Measuring {
        let length = bytes.len() as u64;
        let slice = [&(length as u32).to_le_bytes(), bytes].concat();
        self.register(1, &slice).number(length)
    }

    /// A value too large for registers: it stands in memory, at a multiple of 8 bytes.
    pub fn value<T: Raw>(mut self, value: &T) -> Measuring {
        assert!(size_of::<T>() > 16 && align_of::<T>() <= 8);
        self.in_memory.extend_from_slice(bytes_of(value));
        let end = self.in_memory.len().next_multiple_of(8);
        self.in_memory.resize(end, 0);
        self
    }

    fn register(mut self, kind: u8, held: &[u8]) -> Measuring {
        self.registers.push(kind);
        self.registers.extend_from_slice(held);
        self.count += 1;
        self
    }

    pub fn measured(self) -> Measured {
        let request = Request::with(MEASURE_OP).value(&(self.function as u8));
        let mut request = request.slice(&self.in_memory).value(&self.count);
        request.0.extend_from_slice(&self.registers);
        request.answer()
    }
}

/// Values without references, which cross as their bytes.
///
/// # Safety
/// The bytes that C hands out for such a type must be one of its values: any bytes are a number, and C's `bool` is 0 or 1.
/// So numbers, truth values, and arrays and C structs of them, are such values.
pub unsafe trait Raw: Copy {}
unsafe impl<const N: usize> Raw for [u8; N] {}
unsafe impl Raw for Measured {}

/// A value as it lies in memory. Bytes between fields go along, and nobody looks at them.
fn bytes_of<T: Raw>(value: &T) -> &[u8] {
    let start = std::ptr::from_ref(value).cast::<u8>();
    unsafe { slice::from_raw_parts(start, size_of::<T>()) }
}

const LENGTH_BYTES: usize = 4;

struct Request(Vec<u8>);

impl Request {
    fn to(function: Function) -> Request {
        Request::with(function as u8)
    }

    /// The length comes first, and is put in once it is known.
    fn with(op: u8) -> Request {
        let mut bytes = vec![0; LENGTH_BYTES];
        bytes.push(op);
        Request(bytes)
    }

    fn value<T: Raw>(mut self, value: &T) -> Request {
        self.0.extend_from_slice(bytes_of(value));
        self
    }

    fn slice(self, bytes: &[u8]) -> Request {
        let mut request = self.value(&(bytes.len() as u32));
        request.0.extend_from_slice(bytes);
        request
    }

    fn answer<A: Raw>(self) -> A {
        self.answer_and_lent(&mut [])
    }

    /// The answer; the lent buffer gets the bytes that the function left in the peer's.
    /// C's truth values are 1 and 0, and no other number.
    fn truth(self) -> bool {
        let answer: u8 = self.answer();
        assert!(answer <= 1, "neither 1 nor 0 but {answer}");
        answer == 1
    }

    fn answer_and_lent<A: Raw>(mut self, lent: &mut [u8]) -> A {
        let length = (self.0.len() - LENGTH_BYTES) as u32;
        self.0[..LENGTH_BYTES].copy_from_slice(&length.to_le_bytes());
        PEER.with_borrow_mut(|peer| match peer.ask(&self.0, lent) {
            Ok(answer) => answer,
            Err(error) => peer.fail(error),
        })
    }
}

thread_local! {
    // One for each thread, so that answers do not go to another.
    static PEER: RefCell<Peer> = RefCell::new(Peer::start());
}

/// The toolchain with which the peer was built.
pub fn kit() -> Kit {
    Kit::of(env!("KIT").into())
}

/// Its requests go to the child's standard input.
struct Peer {
    child: Child,
    answers: BufReader<ChildStdout>,
}

impl Peer {
    fn start() -> Peer {
        let mut child = kit()
            .runner(Path::new(env!("PEER")))
            .env_clear()
            .stdin(Stdio::piped())
            .stdout(Stdio::piped())
            .stderr(Stdio::piped())
            .spawn()
            .expect("the peer starts");
        let answers = child.stdout.take().expect("it is piped");
        Peer {
            child,
            answers: BufReader::with_capacity(65_536, answers),
        }
    }

    fn ask<A: Raw>(&mut self, request: &[u8], lent: &mut [u8]) -> Result<A, Error> {
        let requests = self.child.stdin.as_mut().expect("it is piped");
        requests.write_all(request)?;
        let mut length = [0; LENGTH_BYTES];
        self.answers.read_exact(&mut length)?;
        let length = u32::from_le_bytes(length) as usize;
        let wanted = size_of::<A>() + lent.len();
        if length != wanted {
            return Err(Error::other(format!("{length} bytes, not {wanted}")));
        }
        let mut answer = MaybeUninit::<A>::zeroed();
        let start = answer.as_mut_ptr().cast::<u8>();
        let bytes = unsafe { slice::from_raw_parts_mut(start, size_of::<A>()) };
        self.answers.read_exact(bytes)?;
        self.answers.read_exact(lent)?;
        Ok(unsafe { answer.assume_init() })
    }

    /// Ends the test, with what the peer said.
    fn fail(&mut self, error: Error) -> ! {
        let _ = self.child.kill();
        let status = self.child.wait().expect("a child can be waited for");
        let mut said = String::new();
        if let Some(mut words) = self.child.stderr.take() {
            let _ = words.read_to_string(&mut said);
        }
        panic!("the peer's answer: {error}; it ended with {status} and said: {said}");
    }
}

impl Drop for Peer {
    /// Closes its standard input, at which it ends.
    fn drop(&mut self) {
        let _ = self.child.wait();
    }
}
