//! What programs cost that are run to be measured.

use std::io;
use std::process::Child;
use std::time::Duration;

/// What a run cost: how long processors worked for the program, or for the system on its behalf, and how many KiB of
/// memory were resident at most, where Linux counts no less than this program has itself when it starts the other.
#[derive(Clone, Copy, Debug)]
pub struct Cost {
    pub time: Duration,
    pub resident: i64,
}

mod c {
    /// What Linux on x86-64 tells of a process that has ended.
    #[repr(C)]
    #[derive(Default)]
    pub struct Usage {
        /// Seconds and microseconds of the program, and those of the system for it.
        pub times: [i64; 4],
        pub most_resident: i64,
        pub others: [i64; 13],
    }

    extern "C" {
        pub fn wait4(process: i32, status: *mut i32, options: i32, usage: *mut Usage) -> i32;
    }
}

/// Waits for the end of a program, which has to end well.
pub fn wait(child: Child) -> io::Result<Cost> {
    let (mut status, mut usage) = (0, c::Usage::default());
    // SAFETY: both are there to be written, and nothing else waits for this process
    let waited = unsafe { c::wait4(child.id() as i32, &mut status, 0, &mut usage) };
    if waited < 0 || status != 0 {
        return Err(io::Error::new(
            io::ErrorKind::Other,
            format!("a program ended with {status}"),
        ));
    }
    let [seconds, micros, system_seconds, system_micros] = usage.times;
    let worked = (seconds + system_seconds) * 1_000_000 + micros + system_micros;
    Ok(Cost {
        time: Duration::from_micros(worked as u64),
        resident: usage.most_resident,
    })
}
