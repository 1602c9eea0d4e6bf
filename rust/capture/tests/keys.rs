//! Examples of the RFCs.
use quic_wire::Side;
use quic_wire::packet::VERSION_2;
use quic_wire_capture::ciphers::{SAMPLE_LEN, Suite};
use quic_wire_capture::keys::{PacketKeys, VERSION_1, is_retry_authentic, retry_tag};

fn unhex(digits: &str) -> Vec<u8> {
    (0..digits.len()).step_by(2).map(|at| u8::from_str_radix(&digits[at..at + 2], 16).unwrap()).collect()
}

fn sample(digits: &str) -> [u8; SAMPLE_LEN] {
    unhex(digits).try_into().unwrap()
}

const FIRST_ID: &str = "8394c8f03e515708";

// RFC 9001, appendix A.5, and RFC 9369, appendix A.5.
#[test]
fn short_packets() {
    let secret = unhex("9ac312a7f877468ebe69422748ad00a15443f18203a07d6060f688f30f21632b");
    let packets = [
        (VERSION_1, "4cfe4189655e5cd55c41f69080575d7999c25a5bfb", "aefefe7d03"),
        (VERSION_2, "5558b1c60ae7b6b932bc27d786f4bc2bb20f2162ba", "97580e32bf"),
    ];
    for (version, packet, mask) in packets {
        let keys = PacketKeys::new(&secret, Suite::ChaCha20Poly1305, version).unwrap();
        let mut packet = unhex(packet);
        assert_eq!(keys.mask(packet[5..21].try_into().unwrap()).unwrap().to_vec(), unhex(mask));
        let (header, sealed) = packet.split_at_mut(4);
        header.copy_from_slice(&unhex("4200bff4"));
        assert!(keys.open(654_360_564, header, sealed), "version {version:x}");
        assert_eq!(sealed[0], 1);
        assert!(!keys.open(654_360_564, header, sealed), "what was opened isn't sealed");
    }
}

// RFC 9001, appendices A.2 and A.3; RFC 9369, appendices A.2 and A.3.
#[test]
fn masks_of_initial_packets() {
    let id = unhex(FIRST_ID);
    let masks = [
        (VERSION_1, Side::Client, "d1b1c98dd7689fb8ec11d242b123dc9b", "437b9aec36"),
        (VERSION_1, Side::Server, "2cd0991cd25b0aac406a5816b6394100", "2ec0d8356a"),
        (VERSION_2, Side::Client, "ffe67b6abcdb4298b485dd04de806071", "94a0c95e80"),
    ];
    for (version, side, of, mask) in masks {
        let keys = PacketKeys::initial(version, &id, side).unwrap();
        assert_eq!(keys.mask(&sample(of)).unwrap().to_vec(), unhex(mask), "version {version:x}, {side:?}");
    }
}

// RFC 9001, appendix A.4, and RFC 9369, appendix A.4.
#[test]
fn retries() {
    let id = unhex(FIRST_ID);
    let first = unhex("ff000000010008f067a5502a4262b5746f6b656e04a265ba2eff4d829058fb3f0f2496ba");
    let second = unhex("cf6b3343cf0008f067a5502a4262b5746f6b656ec8646ce8bfe33952d955543665dcc7b6");
    assert!(is_retry_authentic(VERSION_1, &id, &first) && is_retry_authentic(VERSION_2, &id, &second));
    assert!(!is_retry_authentic(VERSION_2, &id, &first) && !is_retry_authentic(VERSION_1, &id, &second));
    assert!(!is_retry_authentic(VERSION_1, b"another", &first));
    assert_eq!(retry_tag(VERSION_1, &id, &first[..20]).unwrap().to_vec(), first[20..]);
    assert_eq!(retry_tag(VERSION_1, &[0; 256], &first[..20]), None);
}

// RFC 9001, section 6.1: the key of header protection stays; what was sealed opens.
#[test]
fn updates() {
    for suite in Suite::ALL {
        let keys = PacketKeys::new(&vec![7; suite.secret_len()], suite, VERSION_1).unwrap();
        let updated = keys.updated().unwrap();
        assert_eq!(keys.mask(&[3; SAMPLE_LEN]), updated.mask(&[3; SAMPLE_LEN]));
        let mut sealed = b"payload".to_vec();
        updated.seal(9, b"header", &mut sealed).unwrap();
        let mut other = sealed.clone();
        assert!(!keys.open(9, b"header", &mut other), "{suite:?}");
        assert!(updated.open(9, b"header", &mut sealed) && sealed.starts_with(b"payload"), "{suite:?}");
    }
    assert!(PacketKeys::new(&[7; 31], Suite::Aes128Gcm, VERSION_1).is_none());
}

// RFC 9001, section 5.4.4: the first bytes of a sample are the number of a block of ChaCha20, which may be the last one.
#[test]
fn the_last_block_of_chacha20() {
    let keys = PacketKeys::new(&[7; 32], Suite::ChaCha20Poly1305, VERSION_1).unwrap();
    let mask = keys.mask(&[0xff; SAMPLE_LEN]);
    assert!(mask.is_none_or(|mask| keys.mask(&[0xfe; SAMPLE_LEN]).is_some_and(|other| mask != other)));
}
