//! conformance [FILE..]: checks what an implementation writes: whether types are in their shortest encoding, as RFC
//! 9000, section 12.4, requires, and which frames are longer than necessary, and where. Each file is a payload. Without
//! a file it checks built-in payloads.
use quic_wire::canonical::canonical;
#[cfg(test)]
use quic_wire::canonical::canonical_of;
use quic_wire::frame::{FrameType, Iter};
use quic_wire::{Error, varint};
use std::fmt::{self, Display, Formatter};
use std::ops::Range;
use std::{env, fs, io};

/// A frame that isn't in its shortest form.
#[derive(Debug, PartialEq)]
struct Finding {
    place: Range<usize>,
    ty: FrameType,
    /// How many bytes are enough; the data of the last frame needs no length.
    shortest: usize,
    /// Whether its type is at fault, which a receiver may close the connection for.
    is_type_long: bool,
}

impl Display for Finding {
    fn fmt(&self, f: &mut Formatter<'_>) -> fmt::Result {
        let Range { start, end } = self.place;
        let what = if self.is_type_long { ", its type is not in shortest form" } else { "" };
        write!(f, "{start}..{end} {}: {} bytes, {} would do{what}", self.ty, end - start, self.shortest)
    }
}

/// The remarks on each frame, or on the invalid one.
fn check(payload: &[u8]) -> Result<Vec<Finding>, Error> {
    let (mut frames, mut findings, mut start) = (Iter::new(payload)?, Vec::new(), 0);
    while let Some(frame) = frames.next() {
        let frame = frame?;
        let place = start..frames.offset();
        start = place.end;
        let shortest = frame.encoded_len(place.end == payload.len())?;
        if shortest < place.len() {
            let is_type_long =
                varint::read(&payload[place.clone()]).is_some_and(|(ty, len)| varint::len(ty) != Some(len));
            findings.push(Finding { place, ty: frame.ty(), shortest, is_type_long });
        }
    }
    Ok(findings)
}

/// What a receiver that is strict about types rejects.
fn refused(payload: &[u8]) -> Result<(), Error> {
    Iter::strict(payload)?.try_for_each(|frame| frame.map(|_| ()))?;
    Ok(())
}

fn report(name: &str, payload: &[u8]) -> Result<(), Error> {
    for finding in check(payload)? {
        println!("{name}: {finding}");
    }
    if let Err(error) = refused(payload) {
        println!(
            "{name}: a strict receiver says {error}, {}",
            error.code().map_or_else(String::new, |c| format!("{c:?}"))
        );
    }
    let mut shortest = Vec::with_capacity(payload.len());
    canonical(payload, &mut shortest)?;
    println!("{name}: {} bytes, {} in canonical form", payload.len(), shortest.len());
    Ok(())
}

const OWN: [(&str, &[u8]); 3] = [
    ("shortest", &[0x01, 0x10, 0x05, 0x08, 0x04, b'h', b'i']),
    // PING with a type of two bytes, MAX_DATA with a limit of four, and a STREAM at the end with offset 0 and a length.
    ("longer", &[0x40, 0x01, 0x10, 0x80, 0x00, 0x00, 0x05, 0x0e, 0x04, 0x00, 0x02, b'h', b'i']),
    ("broken", &[0x01, 0x21]),
];

fn main() -> io::Result<()> {
    let print = |name: &str, payload: &[u8]| {
        if let Err(error) = report(name, payload) {
            println!("{name}: {error}");
        }
    };
    let files: Vec<_> = env::args().skip(1).collect();
    if files.is_empty() {
        OWN.iter().for_each(|(name, payload)| print(name, payload));
    }
    for file in files {
        print(&file, &fs::read(&file)?);
    }
    Ok(())
}

#[test]
fn longer_frames_are_found_in_their_places() {
    let [shortest, longer, broken] = OWN.map(|(_, payload)| payload);
    assert_eq!((check(shortest), refused(shortest)), (Ok(vec![]), Ok(())));
    let findings = check(longer).unwrap();
    let reported: Vec<String> = findings.iter().map(Finding::to_string).collect();
    assert_eq!(
        reported,
        [
            "0..2 PING: 2 bytes, 1 would do, its type is not in shortest form",
            "2..7 MAX_DATA: 5 bytes, 2 would do",
            "7..13 STREAM: 6 bytes, 4 would do",
        ]
    );
    // What the frames need is the length of the canonical form.
    let spared: usize = findings.iter().map(|finding| finding.place.len() - finding.shortest).sum();
    assert_eq!(canonical_of(longer).map(|shortest| shortest.len()), Ok(longer.len() - spared));
    assert_eq!(refused(longer).unwrap_err().to_string(), "frame: frame type not in shortest form in PING");
    assert_eq!(check(broken).unwrap_err().to_string(), "frame: invalid frame ID in <unknown 21>");
}
