//! Child processes that are killed, or stopped after each instruction.

use std::ffi::c_void;
use std::ptr::null_mut;

/// struct sigevent: a signal, and that it is to be sent.
#[repr(C)]
struct Event {
    value: *mut c_void,
    signal: i32,
    notify: i32,
    unused: [i32; 12],
}

const MONOTONIC: i32 = 1;

extern "C" {
    fn fork() -> i32;
    fn kill(process: i32, signal: i32) -> i32;
    fn waitpid(process: i32, status: *mut i32, options: i32) -> i32;
    fn raise(signal: i32) -> i32;
    fn ptrace(request: u32, ...) -> i64;
    fn timer_create(clock: i32, event: *const Event, timer: *mut *mut c_void) -> i32;
    fn timer_settime(timer: *mut c_void, flags: i32, new: *const [[i64; 2]; 2], old: *mut [[i64; 2]; 2]) -> i32;
    fn _exit(status: i32) -> !;
}

const KILL: i32 = 9;
const STOP: i32 = 19;
const TRACE_ME: u32 = 0;
const SINGLE_STEP: u32 = 9;

/// The system kills this process after so many nanoseconds, whatever it does then.
pub fn kill_me_in(nanoseconds: usize) {
    let event = Event { value: null_mut(), signal: KILL, notify: 0, unused: [0; 12] };
    let times = [[0, 0], [0, 1 + nanoseconds as i64]];
    let mut timer = null_mut();
    let set =
        unsafe { timer_create(MONOTONIC, &event, &mut timer) == 0 && timer_settime(timer, 0, &times, null_mut()) == 0 };
    if !set {
        unsafe { _exit(1) }
    }
}

pub struct Child(i32);

impl Child {
    /// A child that does this and ends.
    pub fn doing(work: impl FnOnce()) -> Child {
        let child = unsafe { fork() };
        assert!(child >= 0, "no child: {}", std::io::Error::last_os_error());
        if child == 0 {
            work();
            unsafe { _exit(0) }
        }
        Child(child)
    }

    /// A child that does this and stops after each instruction; nothing if the system does not allow it.
    pub fn stepping(work: impl FnOnce()) -> Option<Child> {
        let child = Child::doing(|| unsafe {
            if ptrace(TRACE_ME, 0, null_mut::<u8>(), null_mut::<u8>()) != 0 {
                _exit(1);
            }
            raise(STOP);
            work();
        });
        child.stopped().then_some(child)
    }

    /// Waits until it stops or ends: did it stop?
    fn stopped(&self) -> bool {
        let mut status = 0;
        let waited = unsafe { waitpid(self.0, &mut status, 0) };
        waited == self.0 && status & 0xff == 0x7f
    }

    /// One instruction. Is there a next?
    pub fn step(&self) -> bool {
        let status = unsafe { ptrace(SINGLE_STEP, self.0, null_mut::<u8>(), null_mut::<u8>()) };
        status == 0 && self.stopped()
    }

    /// Kills it.
    pub fn kill(self) {
        unsafe { kill(self.0, KILL) };
        self.killed();
    }

    /// Waits until it ends: was it killed?
    pub fn killed(self) -> bool {
        let mut status = 0;
        let waited = unsafe { waitpid(self.0, &mut status, 0) };
        waited == self.0 && status & 0x7f == KILL
    }
}
