//! Signals that ask the tool to end, held off while files are put in their places: what is begun is finished, which
//! takes no longer than the disk does, and nothing is left beside the files.

extern "C" {
    fn signal(number: i32, handler: usize) -> usize;
}

/// SIGHUP, SIGINT and SIGTERM; and SIGXFSZ, since a file that may not grow is an error of its write.
const HELD: [i32; 4] = [1, 2, 15, 25];

/// SIG_IGN and SIG_ERR of the C library.
const IGNORED: usize = 1;
const FAILED: usize = usize::MAX;

/// Until this is dropped.
pub struct Held([usize; HELD.len()]);

pub fn hold() -> Held {
    // Sound: ignoring a signal runs no code of ours.
    Held(HELD.map(|number| unsafe { signal(number, IGNORED) }))
}

impl Drop for Held {
    fn drop(&mut self) {
        for (number, before) in HELD.into_iter().zip(self.0) {
            if before != FAILED {
                // Sound: what is put back was there before.
                unsafe { signal(number, before) };
            }
        }
    }
}
