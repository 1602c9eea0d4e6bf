//! Lines of the mode `params`, through `run`.
use super::WHOLE;
use crate::proved::quic_base::ids::Side;
use crate::tested::quic_bench::FailAt;
use crate::tested::quic_text::{Mode, mode_of, run, status};

// A line, and what is printed for it as a server reads it.
pub const SERVER: &[(&str, &str)] = &[
    ("", "ok\n"),
    ("1b020102", "ok\n"),
    ("0300", "error malformed\n"),
    ("0b024000", "error malformed\n"),
    ("040101040101", "error malformed\n"),
    ("0a011501", "error malformed\n"),
    ("2003000c00", "error malformed\n"),
    ("c0000000ff04de1b00040107", "error malformed\n"),
    ("01024005", "error malformed\n"),
    ("0c000c00", "error malformed\n"),
    ("0b0480004000", "error illegal value\n"),
    ("0e0101", "error illegal value\n"),
    ("030244af", "error illegal value\n"),
    ("0808d000000000000001", "error illegal value\n"),
    ("0a0115", "error illegal value\n"),
    ("c0000000ff04de1b04800061a9", "error illegal value\n"),
    ("0b027fff", "max_ack_delay 16383\nok\n"),
    ("0808d000000000000000", "initial_max_streams_bidi 1152921504606846976\nok\n"),
    ("20024005", "max_datagram_frame_size 5\nok\n"),
    ("6ab2006ab200", "grease_quic_bit true\nok\n"),
    ("c0000000ff04de1b04800061a8", "min_ack_delay 25000\nok\n"),
    ("c0000000ff04de1b0105c0000000ff04de1b0106", "min_ack_delay 6\nok\n"),
    ("021011111111111111111111111111111111", "error illegal value\n"),
    ("0D", "error malformed\n"),
    ("0", "error not hexadecimal\n"),
    ("zz", "error not hexadecimal\n"),
    (WHOLE, "error illegal value\n"),
];

// The same for a client.
pub const CLIENT: &[(&str, &str)] = &[
    ("021011111111111111111111111111111111", "stateless_reset_token 11111111111111111111111111111111\nok\n"),
    ("0d290000000000000000000000000000000000000000000000000000000000000000000000000000000000", "error illegal value\n"),
    (
        "0d290000000000000000000000000000000000000000000000000000000000000000000000000000000000ff",
        "error illegal value\n",
    ),
    (
        WHOLE,
        "max_udp_payload_size 1200\ninitial_max_streams_bidi 16\ninitial_max_streams_uni 16\nack_delay_exponent 2\npreferred_address 7f000001002a0000000000000000000000000000000100180142abababababababababababababababab\noriginal_dst_cid -\ninitial_src_cid -\ngrease_quic_bit true\nmin_ack_delay 2000\nok\n",
    ),
];

#[test]
fn each_row_by_itself() {
    for (side, rows) in [(Side::Server, SERVER), (Side::Client, CLIENT)] {
        for &(line, text) in rows {
            let input = format!("{line}\n");
            let mut source = FailAt::new(input.as_bytes(), usize::MAX, u64::MAX);
            let mut sink = FailAt::new(b"", usize::MAX, u64::MAX);
            let outcome = run(Mode::Params(side), &mut source, &mut sink);
            let clean = !text.contains("error");
            assert_eq!(outcome, Ok(clean), "at {line}");
            assert_eq!(status(&outcome), if clean { 0 } else { 1 });
            assert_eq!(sink.output(), text.as_bytes(), "at {line}");
        }
    }
}

#[test]
fn words_of_the_modes() {
    assert_eq!(mode_of(&["params", "client"]), Some(Mode::Params(Side::Client)));
    assert_eq!(mode_of(&["params", "server"]), Some(Mode::Params(Side::Server)));
    assert_eq!(mode_of(&["params"]), None);
    assert_eq!(mode_of(&["params", "Client"]), None);
    assert_eq!(mode_of(&["params", "client", "server"]), None);
}
