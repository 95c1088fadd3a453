//! A number that three threads pass on in a circle, as a ping of a handle goes from its user to the runner, the server,
//! the runner and the user, beside threads that each wait on a condition of their own. Nothing of this repository is in
//! it: it is the measure for `sshc_bench beside`.
//!
//! Words: THREADS PINGS. Build it by `rustc --edition 2021 -O bench/beside.rs`.

use std::hint::spin_loop;
use std::sync::atomic::{AtomicU64, Ordering::SeqCst};
use std::sync::{Condvar, Mutex, OnceLock};
use std::thread::{self, Thread};

/// How often a thread looks before it rests: some 40 microseconds, as a handle's threads do.
const PAUSES: u32 = 600;
const READS: u32 = 50;

/// Where one thread waits to be called.
struct Bell {
    rings: AtomicU64,
    thread: OnceLock<Thread>,
}

impl Bell {
    const fn new() -> Bell {
        Bell {
            rings: AtomicU64::new(0),
            thread: OnceLock::new(),
        }
    }

    fn ring(&self) {
        self.rings.fetch_add(1, SeqCst);
        if let Some(thread) = self.thread.get() {
            thread.unpark();
        }
    }

    fn wait(&self, want: u64) {
        for _ in 0..PAUSES {
            for _ in 0..READS {
                if self.rings.load(SeqCst) >= want {
                    return;
                }
            }
            spin_loop();
        }
        while self.rings.load(SeqCst) < want {
            thread::park();
        }
    }
}

static USER: Bell = Bell::new();
static RUNNER: Bell = Bell::new();
static SERVER: Bell = Bell::new();

fn main() {
    let mut words = std::env::args()
        .skip(1)
        .map(|word| word.parse().unwrap_or(1));
    let (threads, times): (u64, u64) = (words.next().unwrap_or(1), words.next().unwrap_or(1));
    let gates: Vec<(Mutex<bool>, Condvar)> = (0..threads).map(|_| Default::default()).collect();
    thread::scope(|all| {
        for (lock, opened) in &gates {
            all.spawn(move || {
                let mut open = lock.lock().unwrap();
                while !*open {
                    open = opened.wait(open).unwrap();
                }
            });
        }
        all.spawn(|| {
            let _ = RUNNER.thread.set(thread::current());
            for ping in 0..times {
                RUNNER.wait(2 * ping + 1);
                SERVER.ring();
                RUNNER.wait(2 * ping + 2);
                USER.ring();
            }
        });
        all.spawn(|| {
            let _ = SERVER.thread.set(thread::current());
            for ping in 0..times {
                SERVER.wait(ping + 1);
                RUNNER.ring();
            }
        });
        let _ = USER.thread.set(thread::current());
        for ping in 0..times {
            RUNNER.ring();
            USER.wait(ping + 1);
        }
        for (lock, opened) in &gates {
            *lock.lock().unwrap() = true;
            opened.notify_all();
        }
    });
}
