//! Prints each packet of standard input, and instead of fragments the whole packet after the last of them.
mod packets;

use wolfaren::defragment::{Outcome, OwnedDefragmenter, Settings};

fn main() {
    // A program that listens to a network takes two random numbers.
    let settings = Settings::new([1, 2]);
    let mut defragmenter = OwnedDefragmenter::try_new(16, settings).expect("memory");
    let mut out = vec![0; OwnedDefragmenter::PACKET_ROOM];
    for (time, packet) in (0..).zip(packets::of_input()) {
        match defragmenter.add(0, time, &packet).outcome {
            Outcome::NotFragment => println!("{} bytes", packet.len()),
            Outcome::MoreWanted => {}
            Outcome::Whole(slot) => match defragmenter.write(slot, &mut out) {
                Ok(len) => println!("{} bytes from fragments", len.unwrap_or(0)),
                Err(error) => println!("{error}"),
            },
            Outcome::Dropped(reason) => println!("dropped: {reason}"),
        }
    }
}
