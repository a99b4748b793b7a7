//! The counting of `desk_run lock THREADS ACTS`, in Rust over Rust's own std::sync::Mutex. Data for bench/desk_turns.
use std::sync::Mutex;

fn main() {
    let mut words = std::env::args().skip(1).map(|word| word.parse::<u32>().expect("a number"));
    let (Some(threads), Some(acts)) = (words.next(), words.next()) else {
        panic!("usage: lock_turns THREADS ACTS");
    };
    let entries = Mutex::new(Vec::new());
    std::thread::scope(|scope| {
        for number in 0..threads {
            let entries = &entries;
            scope.spawn(move || {
                for _ in 0..acts {
                    entries.lock().expect("no thread panics").push(number);
                }
            });
        }
    });
    println!("all: {}", entries.into_inner().expect("no thread panics").len());
}
