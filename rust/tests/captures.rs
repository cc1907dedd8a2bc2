//! Tests the frames of captures, in memory and from readers. The captures are laid out by draft-ietf-opsawg-pcap and
//! draft-ietf-opsawg-pcapng.
#![cfg(feature = "std")]

use std::io::{ErrorKind, Read};
use wolfaren::captures::{BlockError, CaptureError, FrameReader, Frames, Interface, Next};

const LIMIT: u32 = 262_144;

/// Returns a classic capture of raw IP with a frame of each of these lengths, each 7 seconds and 9 microseconds after 1970.
fn classic(lengths: &[u8]) -> Vec<u8> {
    let mut made = 0xa1b2_c3d4_u32.to_le_bytes().to_vec();
    made.extend([
        2, 0, 4, 0, 0, 0, 0, 0, 0, 0, 0, 0, 255, 255, 0, 0, 101, 0, 0, 0,
    ]);
    for len in lengths {
        made.extend([7, 0, 0, 0, 9, 0, 0, 0, *len, 0, 0, 0, 200, 0, 0, 0]);
        made.extend(vec![*len; usize::from(*len)]);
    }
    made
}

/// Returns a block of pcapng in big-endian order, whose body has a length that is a multiple of 4.
fn block(kind: u32, body: &[u8]) -> Vec<u8> {
    let len = (body.len() as u32 + 12).to_be_bytes();
    [&kind.to_be_bytes()[..], &len, body, &len].concat()
}

/// Returns a section of pcapng with an interface of Ethernet, a block of names and a packet of 4 bytes.
fn section() -> Vec<u8> {
    let head = [
        0x1a, 0x2b, 0x3c, 0x4d, 0, 1, 0, 0, 255, 255, 255, 255, 255, 255, 255, 255,
    ];
    let packet = [
        0, 0, 0, 0, 0, 0, 0, 0, 0, 0, 0, 5, 0, 0, 0, 4, 0, 0, 0, 60, 1, 2, 3, 4,
    ];
    let interface = block(1, &[0, 1, 0, 0, 0, 0, 0, 0]);
    [
        block(0x0a0d_0d0a, &head),
        interface,
        block(4, &[0; 4]),
        block(6, &packet),
    ]
    .concat()
}

/// A reader that returns one byte at a time.
struct Slow<'a>(&'a [u8]);

impl Read for Slow<'_> {
    fn read(&mut self, buffer: &mut [u8]) -> std::io::Result<usize> {
        let len = buffer.len().min(1);
        self.0.read(&mut buffer[..len])
    }
}

/// Returns the captured bytes of each frame that a reader returns, and the kind of the error after them.
fn read(bytes: &[u8]) -> (Vec<Vec<u8>>, Option<ErrorKind>) {
    let (mut interfaces, mut found) = ([Interface::default(); 2], Vec::new());
    let mut reader = match FrameReader::new(Slow(bytes), LIMIT, &mut interfaces) {
        Ok(reader) => reader,
        Err(error) => return (found, Some(error.kind())),
    };
    loop {
        match reader.next_frame() {
            Ok(Some(frame)) => found.push(frame.captured.to_vec()),
            Ok(None) => return (found, None),
            Err(error) => return (found, Some(error.kind())),
        }
    }
}

#[test]
fn frames_in_memory() {
    let (bytes, mut interfaces) = (classic(&[40, 0, 3]), []);
    let mut frames = Frames::new(&bytes, LIMIT, &mut interfaces).unwrap();
    assert_eq!(frames.end(), None);
    let found: Vec<_> = frames.by_ref().collect();
    assert_eq!(
        found.iter().map(|it| it.captured.len()).collect::<Vec<_>>(),
        [40, 0, 3]
    );
    assert!(found.iter().all(|it| {
        it.captured
            .iter()
            .all(|byte| usize::from(*byte) == it.captured.len())
    }));
    assert!(
        found
            .iter()
            .all(|it| (it.original_len, it.link_type) == (200, 101))
    );
    assert!(found.iter().all(|it| it.time == Some(7_000_009_000)));
    assert_eq!((frames.end(), frames.rest()), (Some(Next::Ended), &[][..]));
    assert_eq!((frames.next(), frames.end()), (None, Some(Next::Ended)));
}

#[test]
fn other_blocks_are_skipped() {
    let (bytes, mut interfaces) = ([section(), section()].concat(), [Interface::default(); 2]);
    let frames: Vec<_> = Frames::new(&bytes, LIMIT, &mut interfaces)
        .unwrap()
        .collect();
    assert_eq!(frames.len(), 2);
    assert!(
        frames
            .iter()
            .all(|it| (it.captured, it.original_len, it.time) == (&[1, 2, 3, 4], 60, Some(5000)))
    );
    assert_eq!(read(&bytes), (vec![vec![1, 2, 3, 4]; 2], None));
}

#[test]
fn truncated_captures() {
    let bytes = classic(&[40, 0, 3]);
    let ends = [24, 80, 96, 115];
    for len in 0..=bytes.len() {
        let whole = ends[1..].iter().filter(|end| **end <= len).count();
        let is_whole = ends.contains(&len);
        let (found, error) = read(&bytes[..len]);
        assert_eq!(
            (found.len(), error.is_none()),
            (whole, is_whole),
            "{len} bytes"
        );
        assert!(error.is_none_or(|kind| kind == ErrorKind::UnexpectedEof));
        let mut frames = Frames::new(&bytes[..len], LIMIT, &mut []).unwrap();
        assert_eq!(frames.by_ref().count(), whole);
        assert_eq!(matches!(frames.end(), Some(Next::Needs(_))), !is_whole);
    }
}

#[test]
fn bad_captures() {
    assert_eq!(read(&[7; 40]), (vec![], Some(ErrorKind::InvalidData)));
    let magic = CaptureError::UnknownMagic;
    assert_eq!(Frames::new(&[7; 40], LIMIT, &mut []).unwrap_err(), magic);
    let bytes = [section(), block(6, &[0; 20])[..8].to_vec(), vec![0; 24]].concat();
    assert_eq!(
        read(&bytes),
        (vec![vec![1, 2, 3, 4]], Some(ErrorKind::InvalidData))
    );
    let mut interfaces = [Interface::default(); 2];
    let mut frames = Frames::new(&bytes, LIMIT, &mut interfaces).unwrap();
    assert_eq!(frames.by_ref().count(), 1);
    let Some(Next::Error(CaptureError::Block { offset, error })) = frames.end() else {
        panic!("{:?}", frames.end());
    };
    let lengths = BlockError::Lengths { first: 32, last: 0 };
    assert_eq!((offset, error), (section().len() as u64, lengths));
    assert_eq!(frames.rest().len(), 32);
}
