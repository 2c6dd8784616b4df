//! Our side: the proved calls, linked into this process or behind a pipe.

use std::io::{Read, Write};
use std::process::{Child, Command};

#[cfg(feature = "linked")]
pub type Call = unsafe extern "C" fn(*const u8, usize, *mut u8, usize) -> usize;

/// What reaches one part's calls: the program behind the pipe, or the function that it is built on, with the room that its answers to a frame need.
pub struct Part {
    #[cfg_attr(feature = "linked", allow(dead_code))]
    pub program: &'static str,
    #[cfg_attr(not(feature = "linked"), allow(dead_code))]
    pub room: usize,
    #[cfg(feature = "linked")]
    pub linked: Call,
}

pub enum Ours {
    #[cfg(feature = "linked")]
    Linked(Call, usize),
    #[cfg_attr(feature = "linked", allow(dead_code))]
    Pipe(Child),
}

/// A proved program in the folder PROBE_BIN.
pub fn program(name: &str) -> Command {
    let folder = std::env::var_os("PROBE_BIN").expect("PROBE_BIN names the folder of the programs");
    Command::new(std::path::Path::new(&folder).join(name))
}

/// How many bytes stand before and past those that a linked call is lent, and what they hold.
#[cfg(feature = "linked")]
const GUARD: (usize, u8) = (64, 0xC3);

/// What a linked call answers, and what it made of the lent bytes; nothing if it wrote a byte before or past them.
#[cfg(feature = "linked")]
pub fn guarded(call: Call, input: &[u8], lent: &mut [u8]) -> Option<usize> {
    let (many, byte) = GUARD;
    let end = many + lent.len();
    let mut out = vec![byte; end + many];
    out[many..end].copy_from_slice(lent);
    let n = unsafe { call(input.as_ptr(), input.len(), out[many..end].as_mut_ptr(), lent.len()) };
    lent.copy_from_slice(&out[many..end]);
    let kept = out[..many].iter().chain(&out[end..]).all(|b| *b == byte);
    (kept && n <= lent.len()).then_some(n)
}

/// Calls that write a byte outside what they are lent are found, and one that doesn't isn't.
#[cfg(feature = "linked")]
pub fn guard_finds() -> bool {
    unsafe extern "C" fn within(_: *const u8, _: usize, out: *mut u8, len: usize) -> usize {
        unsafe { *out.add(len - 1) = 0 };
        len
    }
    unsafe extern "C" fn before(_: *const u8, _: usize, out: *mut u8, len: usize) -> usize {
        unsafe { *out.sub(1) = 0 };
        len
    }
    unsafe extern "C" fn past(_: *const u8, _: usize, out: *mut u8, len: usize) -> usize {
        unsafe { *out.add(len) = 0 };
        len
    }
    let kept = |call: Call| guarded(call, &[], &mut [1; 8]).is_some();
    let good = kept(within) && !kept(before) && !kept(past);
    println!("differential: faults made on purpose, a byte written before the lent ones and one past them, {}", if good { "are found" } else { "ARE NOT FOUND" });
    good
}

#[cfg(not(feature = "linked"))]
pub fn guard_finds() -> bool {
    true
}

impl Ours {
    #[cfg(feature = "linked")]
    pub fn start(part: &Part) -> Ours {
        Ours::Linked(part.linked, part.room)
    }

    #[cfg(not(feature = "linked"))]
    pub fn start(part: &Part) -> Ours {
        let pipe = std::process::Stdio::piped;
        Ours::Pipe(program(part.program).stdin(pipe()).stdout(pipe()).spawn().expect("the program behind the pipe runs"))
    }

    pub fn place(&self) -> &'static str {
        match self {
            #[cfg(feature = "linked")]
            Ours::Linked(..) => "linked into this process",
            Ours::Pipe(_) => "behind a pipe",
        }
    }

    /// The answers to a frame; `size` is how many bytes they take.
    pub fn run(&mut self, frame: &[u8], size: usize) -> Vec<u8> {
        match self {
            #[cfg(feature = "linked")]
            Ours::Linked(call, room) => {
                let _ = size;
                let mut lent = vec![0u8; *room];
                let n = guarded(*call, frame, &mut lent).expect("no byte outside the lent ones is written");
                lent.truncate(n);
                lent
            }
            Ours::Pipe(child) => {
                child.stdin.as_mut().unwrap().write_all(frame).expect("the program behind the pipe reads");
                let mut out = vec![0u8; size];
                child.stdout.as_mut().unwrap().read_exact(&mut out).expect("the program behind the pipe answers");
                out
            }
        }
    }
}

impl Drop for Ours {
    fn drop(&mut self) {
        #[allow(irrefutable_let_patterns)]
        if let Ours::Pipe(child) = self {
            drop(child.stdin.take());
            let _ = child.wait();
        }
    }
}
