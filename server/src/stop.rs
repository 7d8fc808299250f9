//! Whether the server ends, and why.
use signal_hook::consts::{SIGINT, SIGTERM};
use signal_hook::flag;
use std::io;
use std::sync::atomic::{AtomicBool, Ordering};
use std::sync::{Arc, Mutex};

#[derive(Default)]
pub struct Stop {
    is_over: Arc<AtomicBool>,
    why: Mutex<Option<String>>,
}

impl Stop {
    /// From now on SIGTERM and ^C end the server in place of the process.
    pub fn listen_for_signals(&self) -> io::Result<()> {
        [SIGINT, SIGTERM].into_iter().try_for_each(|it| flag::register(it, Arc::clone(&self.is_over)).map(drop))
    }

    pub fn is_over(&self) -> bool {
        self.is_over.load(Ordering::Relaxed)
    }

    pub fn end(&self) {
        self.is_over.store(true, Ordering::SeqCst);
    }

    /// The server can't go on; the first reason is told.
    pub fn fail(&self, why: String) {
        self.why.lock().unwrap_or_else(|poisoned| poisoned.into_inner()).get_or_insert(why);
        self.end();
    }

    pub fn why(&self) -> Option<String> {
        self.why.lock().unwrap_or_else(|poisoned| poisoned.into_inner()).clone()
    }
}
