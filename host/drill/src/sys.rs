//! The system's calls that the standard library has not, for Linux.

use std::ffi::{c_int, c_long, c_uint, c_void};
use std::fs::File;
use std::io;
use std::os::fd::AsRawFd;
use std::ptr;

extern "C" {
    fn fork() -> c_int;
    fn ptrace(request: c_uint, ...) -> c_long;
    fn waitpid(process: c_int, status: *mut c_int, options: c_int) -> c_int;
    fn raise(signal: c_int) -> c_int;
    fn _exit(status: c_int) -> !;
    fn mmap(
        at: *mut c_void,
        length: usize,
        protection: c_int,
        flags: c_int,
        file: c_int,
        offset: i64,
    ) -> *mut c_void;
    fn munmap(at: *mut c_void, length: usize) -> c_int;
}

/// What a request does not look at, as wide as it might be.
const NOTHING: *mut c_void = ptr::null_mut();

const PTRACE_TRACEME: c_uint = 0;
const PTRACE_CONT: c_uint = 7;
const PTRACE_SINGLESTEP: c_uint = 9;
const PTRACE_SETOPTIONS: c_uint = 0x4200;
const PTRACE_O_EXITKILL: c_long = 0x10_0000;
const SIGSTOP: c_int = 19;
const PROT_READ_WRITE: c_int = 3;
const MAP_SHARED: c_int = 1;

/// A file mapped into this process and its children, who share it.
pub struct Mapping {
    at: *mut u8,
    length: usize,
}

impl Mapping {
    /// All of a file.
    pub fn of(file: &File) -> io::Result<Mapping> {
        let length = file.metadata()?.len() as usize;
        let file = file.as_raw_fd();
        // SAFETY: the system picks a place where nothing lies.
        let at = unsafe {
            mmap(
                ptr::null_mut(),
                length,
                PROT_READ_WRITE,
                MAP_SHARED,
                file,
                0,
            )
        };
        if at as isize == -1 {
            return Err(io::Error::last_os_error());
        }
        let at = at.cast();
        Ok(Mapping { at, length })
    }

    /// The bytes as they stand. Nobody may write them meanwhile: a child is
    /// stopped whenever its parent looks.
    pub fn bytes(&self) -> &[u8] {
        // SAFETY: the mapping lives as long as this.
        unsafe { std::slice::from_raw_parts(self.at, self.length) }
    }

    /// The bytes to write, in the child.
    pub fn bytes_mut(&mut self) -> &mut [u8] {
        // SAFETY: the mapping lives as long as this, which is lent alone.
        unsafe { std::slice::from_raw_parts_mut(self.at, self.length) }
    }
}

impl Drop for Mapping {
    fn drop(&mut self) {
        // SAFETY: nothing is lent of it any more.
        unsafe { munmap(self.at.cast(), self.length) };
    }
}

/// A child that its parent steps through.
pub struct Child(c_int);

/// How a child is found.
#[derive(PartialEq)]
pub enum State {
    Stopped,
    Ended,
}

impl Child {
    /// A child that stops first, then does this and ends.
    pub fn stopped(does: impl FnOnce()) -> io::Result<Child> {
        // SAFETY: this process has one thread, so that a child has all of it.
        match unsafe { fork() } {
            -1 => Err(io::Error::last_os_error()),
            0 => {
                // SAFETY: this request touches no memory.
                if unsafe { ptrace(PTRACE_TRACEME, 0, NOTHING, NOTHING) } != 0 {
                    // SAFETY: the child ends.
                    unsafe { _exit(1) }
                }
                // SAFETY: the child stops here until its parent steps on.
                unsafe { raise(SIGSTOP) };
                does();
                // SAFETY: the child ends, without what its parent has still to do.
                unsafe { _exit(0) }
            }
            process => {
                let child = Child(process);
                if child.wait()? == State::Ended {
                    return Err(io::Error::other("the system does not let us"));
                }
                // it ends with its parent, however that ends
                // SAFETY: this request touches no memory of this process.
                unsafe { ptrace(PTRACE_SETOPTIONS, process, NOTHING, PTRACE_O_EXITKILL) };
                Ok(child)
            }
        }
    }

    /// Lets it make one instruction.
    pub fn step(&self) -> io::Result<State> {
        self.go(PTRACE_SINGLESTEP)
    }

    /// Lets it go to its end.
    pub fn finish(&self) -> io::Result<()> {
        while self.go(PTRACE_CONT)? != State::Ended {}
        Ok(())
    }

    fn go(&self, request: c_uint) -> io::Result<State> {
        // SAFETY: these requests touch no memory of this process.
        if unsafe { ptrace(request, self.0, NOTHING, NOTHING) } != 0 {
            return Err(io::Error::last_os_error());
        }
        self.wait()
    }

    fn wait(&self) -> io::Result<State> {
        let mut status = 0;
        // SAFETY: the status lives during the call.
        if unsafe { waitpid(self.0, &mut status, 0) } != self.0 {
            return Err(io::Error::last_os_error());
        }
        match status & 0xff {
            0x7f => Ok(State::Stopped),
            _ => Ok(State::Ended),
        }
    }
}
