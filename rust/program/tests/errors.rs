//! Where an error of `quic-wire` is, in which field, and what an endpoint does by the RFCs.
mod common;

use common::{lines, run};

const ENCODING: &str = "close_code=7 close_name=FRAME_ENCODING_ERROR";
const VIOLATION: &str = "close_code=10 close_name=PROTOCOL_VIOLATION";
const PARAMETER: &str = "close_code=8 close_name=TRANSPORT_PARAMETER_ERROR";

// Each line ends with an error: its offset, what it is, the field with its offset, the close code, the section.
#[test]
fn an_error_of_a_frame_names_its_field() {
    let rows = [
        ("", 0, "packet payload is empty", None, VIOLATION, "12.4"),
        ("0121", 1, "invalid frame ID in <unknown 21>", Some(("Type", 1)), ENCODING, "12.4"),
        ("01 4001", 1, "frame type not in shortest form in PING", Some(("Type", 1)), VIOLATION, "12.4"),
        ("40", 0, "unexpected end", Some(("Type", 0)), ENCODING, "20.1"),
        ("01 10", 1, "unexpected end in MAX_DATA", Some(("Maximum Data", 2)), ENCODING, "20.1"),
        ("06 00 05 aa", 0, "unexpected end in CRYPTO", Some(("Crypto Data", 3)), ENCODING, "20.1"),
        ("06 00 40", 0, "unexpected end in CRYPTO", Some(("Length", 2)), ENCODING, "20.1"),
        ("0e 04 00 02 61", 0, "unexpected end in STREAM", Some(("Stream Data", 4)), ENCODING, "20.1"),
        ("1c 00 00 01", 0, "unexpected end in CONNECTION_CLOSE", Some(("Reason Phrase", 4)), ENCODING, "20.1"),
        ("1a 010203", 0, "unexpected end in PATH_CHALLENGE", Some(("Data", 1)), ENCODING, "20.1"),
        ("02 05 00 00 06", 0, "malformed in ACK", Some(("First ACK Range", 4)), ENCODING, "19.3.1"),
        ("02 05 00 01 02 02 00", 0, "malformed in ACK", Some(("Gap", 5)), ENCODING, "19.3.1"),
        ("02 05 00 01 02 00 02", 0, "malformed in ACK", Some(("ACK Range Length", 6)), ENCODING, "19.3.1"),
        ("18 05 06 01", 0, "malformed in NEW_CONNECTION_ID", Some(("Retire Prior To", 2)), ENCODING, "19.15"),
        ("18 05 05 00", 0, "malformed in NEW_CONNECTION_ID", Some(("Length", 3)), ENCODING, "19.15"),
        ("18 05 05 15", 0, "malformed in NEW_CONNECTION_ID", Some(("Length", 3)), ENCODING, "19.15"),
        ("18 05 05 02 aa", 0, "unexpected end in NEW_CONNECTION_ID", Some(("Connection ID", 4)), ENCODING, "20.1"),
    ];
    for (line, at, what, field, close, section) in rows {
        let field = field.map_or(String::new(), |(name, at)| format!("field=\"{name}\" field_at={at} "));
        let error = format!("1: error at {at}: {what} {field}{close} section=\"RFC 9000, section {section}\"");
        assert_eq!(lines(&["frames", "--strict"], &format!("{line}\n")).pop(), Some(error), "{line}");
    }
}

#[test]
fn an_error_of_a_packet_names_its_field() {
    let dropped = |section| format!("then=\"the packet is dropped\" section=\"RFC 9000, section {section}\"");
    let rows = [
        ("21aabb", "fixed bit unset field=\"Fixed Bit\" field_at=0", dropped("17.3.1")),
        ("80000000001500", "malformed cid field=\"Destination Connection ID Length\" field_at=5", dropped("17.2")),
        ("8000000001 00 00 00 01 aa", "fixed bit unset field=\"Fixed Bit\" field_at=0", dropped("17.2")),
        ("c00000", "unexpected end of packet field=\"Version\" field_at=1", dropped("12.2")),
        ("c000000001 15", "malformed cid field=\"Destination Connection ID Length\" field_at=5", dropped("17.2")),
        ("c000000001 01aa 15", "malformed cid field=\"Source Connection ID Length\" field_at=7", dropped("17.2")),
        ("c000000001 00 00 02 aa", "token out of bounds field=\"Token\" field_at=8", dropped("12.2")),
        (
            "e000000001 01aa 00 400a 01",
            "packet too short to contain payload length dst=aa src=- version=00000001 len=10 number_at=10 \
             field=\"Length\" field_at=8",
            dropped("12.2"),
        ),
        ("61aa", "packet too small field=\"Destination Connection ID\" field_at=1", dropped("12.2")),
        (
            "c000000009 020102 030405ff",
            "unsupported version 9 dst=0102 src=0405ff field=\"Version\" field_at=1",
            "then=\"a server responds with a version negotiation, a client drops the packet\" \
             section=\"RFC 9000, sections 5.2.1 and 5.2.2\""
                .into(),
        ),
    ];
    for (line, what, then) in rows {
        let reported = lines(&["datagram", "--cid-len", "4"], &format!("{line}\n"));
        assert_eq!(reported, [format!("1: error at 0: {what} {then}")], "{line}");
    }
}

// A list, where the parameter at fault begins, the error, the parameter, why, and the section.
const PARAMETERS: [(&str, usize, &str, &str, &str, &str); 8] = [
    ("0a0115", 0, "illegal value", "ack_delay_exponent id=10 value=15", "=a number of at most 20", "18.2"),
    ("010100 0b0480004000", 3, "illegal value", "max_ack_delay id=11 value=80004000", "=a number below 2^14", "18.2"),
    ("030244af", 0, "illegal value", "max_udp_payload_size id=3 value=44af", "=a number of 1200 or more", "18.2"),
    ("0e0101", 0, "illegal value", "active_connection_id_limit id=14 value=01", "=a number of 2 or more", "18.2"),
    ("0c0100", 0, "malformed", "disable_active_migration id=12 value=00", "=no bytes", "18.2"),
    ("0202aabb", 0, "malformed", "stateless_reset_token id=2 value=aabb", "=16 bytes", "18.2"),
    ("010100 1100 010100", 5, "malformed", "max_idle_timeout id=1 value=00", "it occurs twice", "7.4"),
    ("010100 0105", 3, "malformed", "max_idle_timeout id=1", "it is cut off", "18"),
];

#[test]
fn an_error_of_parameters_names_the_parameter() {
    for (list, at, what, parameter, why, section) in PARAMETERS {
        let why = match why.strip_prefix('=') {
            Some(wanted) => format!("wanted=\"{wanted}\" why=\"its value is invalid\""),
            None => format!("why=\"{why}\""),
        };
        let error = format!(
            "1: error at {at}: {what} parameter={parameter} {why} {PARAMETER} section=\"RFC 9000, section {section}\""
        );
        assert_eq!(lines(&["params"], &format!("{list}\n")), [error], "{list}");
    }
    let of_client = lines(&["params", "--side=server"], "000100\n");
    let error = format!(
        "1: error at 0: illegal value parameter=original_dst_cid id=0 value=00 why=\"a client must not send it\" \
         {PARAMETER} section=\"RFC 9000, section 18.2\""
    );
    assert_eq!(of_client, [error]);
}

#[test]
fn programs_read_where_an_error_is() {
    let (text, _, status) = run(&["frames", "--json"], b"01060005aa\n");
    let error = concat!(
        r#"{"line":1,"offset":1,"error":"unexpected end in CRYPTO","field":"Crypto Data","field_at":4,"close_code":7,"#,
        r#""close_name":"FRAME_ENCODING_ERROR","section":"RFC 9000, section 20.1"}"#,
    );
    assert_eq!((text.lines().last(), status), (Some(error), 1));
    let text = lines(&["params", "--json"], "0e0101\n");
    let error = concat!(
        r#"{"line":1,"offset":0,"error":"illegal value","parameter":"active_connection_id_limit","id":14,"#,
        r#""value":"01","wanted":"a number of 2 or more","why":"its value is invalid","close_code":8,"#,
        r#""close_name":"TRANSPORT_PARAMETER_ERROR","section":"RFC 9000, section 18.2"}"#,
    );
    assert_eq!(text, [error]);
    assert_eq!(lines(&["frames", "--json"], "40 0g\n"), [r#"{"line":1,"error":"not hexadecimal: 'g' in column 5"}"#]);
}
