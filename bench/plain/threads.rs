//! `threads COUNT`: two threads hand a message to and fro so many times, by a lock and two condition variables.

use std::sync::{Condvar, Mutex};

#[derive(Default)]
struct Place {
    is_clients: bool,
    message: [u8; 32],
}

#[derive(Default)]
struct Shared {
    place: Mutex<Place>,
    client: Condvar,
    server: Condvar,
}

impl Shared {
    fn hand_over(&self, to_client: bool, message: [u8; 32]) {
        *self.place.lock().unwrap() = Place { is_clients: to_client, message };
        if to_client { &self.client } else { &self.server }.notify_one();
    }

    fn wait(&self, is_client: bool) -> [u8; 32] {
        let bell = if is_client { &self.client } else { &self.server };
        bell.wait_while(self.place.lock().unwrap(), |place| place.is_clients != is_client).unwrap().message
    }
}

fn main() {
    let count: u64 = std::env::args().nth(1).and_then(|word| word.parse().ok()).expect("a count");
    let shared = Shared { place: Mutex::new(Place { is_clients: true, ..Place::default() }), ..Shared::default() };
    std::thread::scope(|scope| {
        let server = scope.spawn(|| {
            for _ in 0..count {
                let message = shared.wait(false);
                shared.hand_over(true, message);
            }
        });
        let mut message = [0; 32];
        for _ in 0..count {
            shared.hand_over(false, message);
            message = shared.wait(true);
        }
        server.join().unwrap();
    });
}
