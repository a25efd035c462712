//! Processor time, of this program and of the programs that it has waited for.

#[repr(C)]
struct Time {
    seconds: i64,
    parts: i64,
}

/// What the system tells of the use of resources: user time comes first, and the rest is not looked at.
#[repr(C)]
struct Usage {
    user: Time,
    rest: [i64; 16],
}

extern "C" {
    fn clock_gettime(clock: i32, time: *mut Time) -> i32;
    fn getrusage(who: i32, usage: *mut Usage) -> i32;
}

/// The clock of the processor time of this program.
const OWN: i32 = 2;

/// All programs that this one started and waited for.
const CHILDREN: i32 = -1;

/// Seconds of processor time that this program has used.
pub fn own() -> f64 {
    let mut time = Time { seconds: 0, parts: 0 };
    // The place is this function's own and has the form that the system writes.
    let answer = unsafe { clock_gettime(OWN, &mut time) };
    assert_eq!(answer, 0, "this system has no clock of processor time");
    time.seconds as f64 + time.parts as f64 / 1e9
}

/// Seconds of user time that the programs have used which this one started and waited for.
pub fn children() -> f64 {
    let mut usage = Usage { user: Time { seconds: 0, parts: 0 }, rest: [0; 16] };
    // The place is this function's own and is as large as what the system writes.
    let answer = unsafe { getrusage(CHILDREN, &mut usage) };
    assert_eq!(answer, 0, "this system does not tell user time");
    usage.user.seconds as f64 + usage.user.parts as f64 / 1e6
}
