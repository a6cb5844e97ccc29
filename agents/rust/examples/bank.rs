//! Two tellers move money in opposite directions, and lock the two accounts in opposite orders. This program can deadlock. In this run
//! the second teller comes half a second later, so it does not.
//!
//!     cargo run --offline --example bank

use goodlock::sync::{Arc, Mutex};
use goodlock::thread;
use std::time::Duration;

fn transfer(giver: &Mutex<i32>, taker: &Mutex<i32>, amount: i32) {
    let mut from = giver.lock().unwrap();
    let mut to = taker.lock().unwrap();
    *from -= amount;
    *to += amount;
}

fn main() {
    let alice = Arc::new(Mutex::new(100));
    let bob = Arc::new(Mutex::new(100));
    let accounts = (alice.clone(), bob.clone());
    let early = thread::spawn(move || transfer(&accounts.0, &accounts.1, 30));
    let accounts = (alice.clone(), bob.clone());
    let late = thread::spawn(move || {
        thread::sleep(Duration::from_millis(500));
        transfer(&accounts.1, &accounts.0, 10);
    });
    early.join().unwrap();
    late.join().unwrap();
    let alice = *alice.lock().unwrap();
    let bob = *bob.lock().unwrap();
    println!("alice has {alice}, bob has {bob}");
}
