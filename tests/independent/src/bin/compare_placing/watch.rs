//! Ends the program if the archive does not answer in time, and says for what
//! message and book.

use crate::comparison::{DIFFERENCE, PROGRAM};
use independent::difference::print_input;
use std::process::exit;
use std::sync::{Arc, Mutex, PoisonError};
use std::thread;
use std::time::{Duration, Instant};

/// The archive must answer within this time.
const TIME_LIMIT: Duration = Duration::from_secs(10);
const LOOKS_EVERY: Duration = Duration::from_secs(1);

pub struct Watch {
    call: Arc<Mutex<Call>>,
}

#[derive(Default)]
struct Call {
    /// None between calls.
    begin: Option<Instant>,
    message: Vec<u8>,
    book: Vec<u8>,
}

impl Watch {
    pub fn new() -> Watch {
        let call = Arc::new(Mutex::new(Call::default()));
        let watched = Arc::clone(&call);
        thread::spawn(move || loop {
            thread::sleep(LOOKS_EVERY);
            let call = watched.lock().unwrap_or_else(PoisonError::into_inner);
            if call.begin.is_some_and(|begin| begin.elapsed() > TIME_LIMIT) {
                println!("{DIFFERENCE}");
                println!("  no answer in {} s", TIME_LIMIT.as_secs());
                print_input(PROGRAM, &call.message, &call.book);
                exit(1);
            }
        });
        Watch { call }
    }

    /// The call's answer, and how long it took.
    pub fn during<T>(&self, message: &[u8], book: &[u8], ask: impl FnOnce() -> T) -> (T, Duration) {
        let begin = Instant::now();
        self.note(|call| {
            call.message.clear();
            call.message.extend(message);
            call.book.clear();
            call.book.extend(book);
            call.begin = Some(begin);
        });
        let begin = Instant::now();
        let answer = ask();
        let time = begin.elapsed();
        self.note(|call| call.begin = None);
        (answer, time)
    }

    fn note(&self, change: impl FnOnce(&mut Call)) {
        change(&mut self.call.lock().unwrap_or_else(PoisonError::into_inner));
    }
}
