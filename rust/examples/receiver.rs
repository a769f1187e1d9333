//! Segments that arrive in any order become one stream. README of the repository quotes this program.
use net_base::receiver::Receiver;

fn main() {
    let mut storage = [0u8; 16];
    let mut receiver = Receiver::<2>::new(&mut storage[..]); // at most two ranges may wait
    for (position, data) in [(4, "ef"), (8, "ij"), (12, "mn"), (0, "abcd"), (6, "gh")] {
        match receiver.keep(position, data.as_bytes()) {
            Ok(_) => println!("{data} at {position}: {} bytes can be read", receiver.queued()),
            Err(refused) => println!("{data} at {position}: {refused}"),
        }
    }
}
