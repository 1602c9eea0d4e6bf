//! Headers, written to a vector with exactly enough room and to one with more.
use crate::host::prelude::*;
use crate::proved::quic_packets::packet::Header;
use crate::tested::quic_test_refused_packets::worked::{handshake, initial, short};

// Whether the header is written as these bytes into an empty vector.
fn is_written(out: &mut Vec<u8>, head: &Header, bytes: &[u8]) -> bool {
    head.encode(out).is_ok() && out.as_slice() == bytes
}

fn is_written_with_room(out: &mut Vec<u8>, head: &Header, bytes: &[u8]) -> bool {
    out.reserve(200);
    is_written(out, head, bytes)
}

fn check_written(head: &Header, bytes: &[u8]) {
    assert!(is_written(&mut Vec::new(), head, bytes), "tight");
    assert!(is_written_with_room(&mut Vec::new(), head, bytes), "roomy");
}

fn check_handshake() {
    let bytes = b"\xe0\0\0\0\x01\x01\xaa\0\0\0\0";
    check_written(&handshake(1), bytes);
}

fn check_short() {
    let bytes = b"\x40\xab\xcd\x05";
    check_written(&short(b"\xab\xcd", 5), bytes);
}

fn check_initials() {
    check_written(&initial(b""), b"\xc2\0\0\0\x01\x03\x01\x02\x03\x01\x04\0\0\0\x12\x34\x56");
    check_written(
        &initial(b"twenty bytes of text"),
        b"\xc2\0\0\0\x01\x03\x01\x02\x03\x01\x04\x14twenty bytes of text\0\0\x12\x34\x56",
    );
    check_written(&initial(b"five."), b"\xc2\0\0\0\x01\x03\x01\x02\x03\x01\x04\x05five.\0\0\x12\x34\x56");
}

#[test]
fn headers_written() {
    check_handshake();
    check_short();
    check_initials();
}
