//! Counts the frames of the capture on standard input, and those with an IP packet.
use std::io::{Error, Read, stdin};
use wolfaren::captures::{Frames, Interface};
use wolfaren::dissect::dissect;
use wolfaren::frames::{FrameEnd, find_ip};

fn main() -> Result<(), Error> {
    let mut bytes = Vec::new();
    stdin().read_to_end(&mut bytes)?;
    let mut interfaces = [Interface::default(); 256];
    let mut capture = Frames::new(&bytes, 262_144, &mut interfaces).map_err(Error::other)?;
    let (mut frames, mut packets) = (0, 0);
    for frame in capture.by_ref() {
        let found = find_ip(frame.link_type.into(), frame.captured);
        let is_ip = found.is_some_and(|it| {
            it.end == FrameEnd::Ip && dissect(&frame.captured[it.offset..]).base.is_some()
        });
        (frames, packets) = (frames + 1, packets + usize::from(is_ip));
    }
    if let Some(end) = capture.end() {
        println!("{frames} frames, {packets} of IP: {end:?}");
    }
    Ok(())
}
