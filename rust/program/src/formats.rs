//! What the RFCs call the fields of frames, headers and parameters, where they describe them, and how
//! these are shown.
//! Made by scripts/make/tables from docs/formats.json: change nothing here.
#![allow(dead_code)]

/// A field, by its index in its row; 0 is the type of a frame, the first byte of a header.
#[derive(Clone, Copy, Debug, PartialEq)]
pub struct Field {
    /// Its name in the RFC. A rule, which has no bytes, has that of the field which it limits.
    pub name: &'static str,
    /// The names of the numbers before its bytes: a length; of the ranges of an ACK their count, the first range, a gap
    /// and a length.
    pub numbers: &'static [&'static str],
}

/// How a field is shown.
#[derive(Clone, Copy)]
pub enum Kind {
    Number,
    Flag,
    Direction,
    /// The transport's code, with its name.
    Code,
    /// A type of frame, with its name; 0 isn't shown.
    Type,
    /// The eight bytes of a number.
    Eight,
    Bytes,
    /// Bytes with their length.
    Data,
    /// As text and as bytes.
    Text,
    Ranges,
    Address,
}

/// A field that is shown, under quinn-proto's name.
pub struct Shown {
    pub name: &'static str,
    pub kind: Kind,
    /// Its index in its row.
    pub field: usize,
}

/// A type of frame.
pub struct Frame {
    pub ty: u64,
    pub name: &'static str,
    pub section: &'static str,
    pub fields: &'static [Field],
    /// In this order.
    pub shown: &'static [Shown],
}

impl Frame {
    /// The one with a type.
    pub fn of(ty: u64) -> Option<&'static Frame> {
        FRAMES.iter().find(|frame| frame.ty == ty)
    }
}

/// A header; the version and the type's two bits are 0 if it has none.
pub struct Header {
    pub version: u32,
    pub type_bits: u8,
    pub name: &'static str,
    pub section: &'static str,
    pub fields: &'static [Field],
    /// The names of what follows the header.
    pub after: &'static [&'static str],
    /// What is shown of it, under these names, in this order.
    pub shown: &'static [&'static str],
}

/// A transport parameter.
pub struct Parameter {
    pub id: u64,
    /// Its name in the RFC.
    pub name: &'static str,
    /// Its name in `quinn-proto`.
    pub quinn_proto: &'static str,
    pub kind: Kind,
    /// The number that it has if it isn't there.
    pub default: Option<u64>,
    /// What its value must be.
    pub wanted: &'static str,
    pub section: &'static str,
    /// Whether a client must not send it.
    pub is_servers: bool,
    /// Whether `quinn-proto` accepts it more than once.
    pub may_repeat: bool,
    /// Whether `quinn-proto` rejects its number if that isn't in its shortest encoding.
    pub is_shortest: bool,
}

/// Why something is rejected, by the number that the library returns in C.
pub struct Reason {
    pub number: i32,
    /// The code to close with; 0 if nothing is closed.
    pub close_code: u64,
    pub section: &'static str,
    pub text: &'static str,
}

const fn plain(name: &'static str) -> Field {
    Field { name, numbers: &[] }
}

const fn with(name: &'static str, numbers: &'static [&'static str]) -> Field {
    Field { name, numbers }
}

const fn shown(name: &'static str, kind: Kind, field: usize) -> Shown {
    Shown { name, kind, field }
}

/// The frames, by their types.
pub const FRAMES: &[Frame] = &[
    Frame {
        ty: 0x00, name: "PADDING", section: "RFC 9000, section 19.1", fields: &[plain("Type")], shown: &[],
    },
    Frame {
        ty: 0x01, name: "PING", section: "RFC 9000, section 19.2", fields: &[plain("Type")], shown: &[],
    },
    Frame {
        ty: 0x02, name: "ACK", section: "RFC 9000, section 19.3",
        fields: &[
            plain("Type"), plain("Largest Acknowledged"), plain("ACK Delay"),
            with("ACK Ranges", &["ACK Range Count", "First ACK Range", "Gap", "ACK Range Length"]),
        ],
        shown: &[
            shown("largest", Kind::Number, 1), shown("delay", Kind::Number, 2), shown("ranges", Kind::Ranges, 3),
        ],
    },
    Frame {
        ty: 0x03, name: "ACK", section: "RFC 9000, section 19.3",
        fields: &[
            plain("Type"), plain("Largest Acknowledged"), plain("ACK Delay"),
            with("ACK Ranges", &["ACK Range Count", "First ACK Range", "Gap", "ACK Range Length"]),
            plain("ECT0 Count"), plain("ECT1 Count"), plain("ECN-CE Count"),
        ],
        shown: &[
            shown("largest", Kind::Number, 1), shown("delay", Kind::Number, 2), shown("ranges", Kind::Ranges, 3),
            shown("ect0", Kind::Number, 4), shown("ect1", Kind::Number, 5), shown("ce", Kind::Number, 6),
        ],
    },
    Frame {
        ty: 0x04, name: "RESET_STREAM", section: "RFC 9000, section 19.4",
        fields: &[
            plain("Type"), plain("Stream ID"), plain("Application Protocol Error Code"), plain("Final Size"),
        ],
        shown: &[
            shown("id", Kind::Number, 1), shown("error_code", Kind::Number, 2), shown("final_offset", Kind::Number, 3),
        ],
    },
    Frame {
        ty: 0x05, name: "STOP_SENDING", section: "RFC 9000, section 19.5",
        fields: &[plain("Type"), plain("Stream ID"), plain("Application Protocol Error Code")],
        shown: &[shown("id", Kind::Number, 1), shown("error_code", Kind::Number, 2)],
    },
    Frame {
        ty: 0x06, name: "CRYPTO", section: "RFC 9000, section 19.6",
        fields: &[plain("Type"), plain("Offset"), with("Crypto Data", &["Length"])],
        shown: &[shown("offset", Kind::Number, 1), shown("data", Kind::Data, 2)],
    },
    Frame {
        ty: 0x07, name: "NEW_TOKEN", section: "RFC 9000, section 19.7",
        fields: &[plain("Type"), with("Token", &["Token Length"])], shown: &[shown("token", Kind::Bytes, 1)],
    },
    Frame {
        ty: 0x08, name: "STREAM", section: "RFC 9000, section 19.8",
        fields: &[plain("Type"), plain("FIN"), plain("Stream ID"), plain("Offset"), plain("Stream Data")],
        shown: &[
            shown("id", Kind::Number, 2), shown("offset", Kind::Number, 3), shown("fin", Kind::Flag, 1),
            shown("data", Kind::Data, 4),
        ],
    },
    Frame {
        ty: 0x09, name: "STREAM", section: "RFC 9000, section 19.8",
        fields: &[plain("Type"), plain("FIN"), plain("Stream ID"), plain("Offset"), plain("Stream Data")],
        shown: &[
            shown("id", Kind::Number, 2), shown("offset", Kind::Number, 3), shown("fin", Kind::Flag, 1),
            shown("data", Kind::Data, 4),
        ],
    },
    Frame {
        ty: 0x0a, name: "STREAM", section: "RFC 9000, section 19.8",
        fields: &[
            plain("Type"), plain("FIN"), plain("Stream ID"), plain("Offset"), with("Stream Data", &["Length"]),
        ],
        shown: &[
            shown("id", Kind::Number, 2), shown("offset", Kind::Number, 3), shown("fin", Kind::Flag, 1),
            shown("data", Kind::Data, 4),
        ],
    },
    Frame {
        ty: 0x0b, name: "STREAM", section: "RFC 9000, section 19.8",
        fields: &[
            plain("Type"), plain("FIN"), plain("Stream ID"), plain("Offset"), with("Stream Data", &["Length"]),
        ],
        shown: &[
            shown("id", Kind::Number, 2), shown("offset", Kind::Number, 3), shown("fin", Kind::Flag, 1),
            shown("data", Kind::Data, 4),
        ],
    },
    Frame {
        ty: 0x0c, name: "STREAM", section: "RFC 9000, section 19.8",
        fields: &[plain("Type"), plain("FIN"), plain("Stream ID"), plain("Offset"), plain("Stream Data")],
        shown: &[
            shown("id", Kind::Number, 2), shown("offset", Kind::Number, 3), shown("fin", Kind::Flag, 1),
            shown("data", Kind::Data, 4),
        ],
    },
    Frame {
        ty: 0x0d, name: "STREAM", section: "RFC 9000, section 19.8",
        fields: &[plain("Type"), plain("FIN"), plain("Stream ID"), plain("Offset"), plain("Stream Data")],
        shown: &[
            shown("id", Kind::Number, 2), shown("offset", Kind::Number, 3), shown("fin", Kind::Flag, 1),
            shown("data", Kind::Data, 4),
        ],
    },
    Frame {
        ty: 0x0e, name: "STREAM", section: "RFC 9000, section 19.8",
        fields: &[
            plain("Type"), plain("FIN"), plain("Stream ID"), plain("Offset"), with("Stream Data", &["Length"]),
        ],
        shown: &[
            shown("id", Kind::Number, 2), shown("offset", Kind::Number, 3), shown("fin", Kind::Flag, 1),
            shown("data", Kind::Data, 4),
        ],
    },
    Frame {
        ty: 0x0f, name: "STREAM", section: "RFC 9000, section 19.8",
        fields: &[
            plain("Type"), plain("FIN"), plain("Stream ID"), plain("Offset"), with("Stream Data", &["Length"]),
        ],
        shown: &[
            shown("id", Kind::Number, 2), shown("offset", Kind::Number, 3), shown("fin", Kind::Flag, 1),
            shown("data", Kind::Data, 4),
        ],
    },
    Frame {
        ty: 0x10, name: "MAX_DATA", section: "RFC 9000, section 19.9", fields: &[plain("Type"), plain("Maximum Data")],
        shown: &[shown("limit", Kind::Number, 1)],
    },
    Frame {
        ty: 0x11, name: "MAX_STREAM_DATA", section: "RFC 9000, section 19.10",
        fields: &[plain("Type"), plain("Stream ID"), plain("Maximum Stream Data")],
        shown: &[shown("id", Kind::Number, 1), shown("offset", Kind::Number, 2)],
    },
    Frame {
        ty: 0x12, name: "MAX_STREAMS", section: "RFC 9000, section 19.11",
        fields: &[plain("Type"), plain("Direction"), plain("Maximum Streams")],
        shown: &[shown("dir", Kind::Direction, 1), shown("count", Kind::Number, 2)],
    },
    Frame {
        ty: 0x13, name: "MAX_STREAMS", section: "RFC 9000, section 19.11",
        fields: &[plain("Type"), plain("Direction"), plain("Maximum Streams")],
        shown: &[shown("dir", Kind::Direction, 1), shown("count", Kind::Number, 2)],
    },
    Frame {
        ty: 0x14, name: "DATA_BLOCKED", section: "RFC 9000, section 19.12",
        fields: &[plain("Type"), plain("Maximum Data")], shown: &[shown("offset", Kind::Number, 1)],
    },
    Frame {
        ty: 0x15, name: "STREAM_DATA_BLOCKED", section: "RFC 9000, section 19.13",
        fields: &[plain("Type"), plain("Stream ID"), plain("Maximum Stream Data")],
        shown: &[shown("id", Kind::Number, 1), shown("offset", Kind::Number, 2)],
    },
    Frame {
        ty: 0x16, name: "STREAMS_BLOCKED", section: "RFC 9000, section 19.14",
        fields: &[plain("Type"), plain("Direction"), plain("Maximum Streams")],
        shown: &[shown("dir", Kind::Direction, 1), shown("limit", Kind::Number, 2)],
    },
    Frame {
        ty: 0x17, name: "STREAMS_BLOCKED", section: "RFC 9000, section 19.14",
        fields: &[plain("Type"), plain("Direction"), plain("Maximum Streams")],
        shown: &[shown("dir", Kind::Direction, 1), shown("limit", Kind::Number, 2)],
    },
    Frame {
        ty: 0x18, name: "NEW_CONNECTION_ID", section: "RFC 9000, section 19.15",
        fields: &[
            plain("Type"), plain("Sequence Number"), plain("Retire Prior To"), plain("Retire Prior To"),
            with("Connection ID", &["Length"]), plain("Stateless Reset Token"),
        ],
        shown: &[
            shown("sequence", Kind::Number, 1), shown("retire_prior_to", Kind::Number, 2), shown("id", Kind::Bytes, 4),
            shown("reset_token", Kind::Bytes, 5),
        ],
    },
    Frame {
        ty: 0x19, name: "RETIRE_CONNECTION_ID", section: "RFC 9000, section 19.16",
        fields: &[plain("Type"), plain("Sequence Number")], shown: &[shown("sequence", Kind::Number, 1)],
    },
    Frame {
        ty: 0x1a, name: "PATH_CHALLENGE", section: "RFC 9000, section 19.17", fields: &[plain("Type"), plain("Data")],
        shown: &[shown("data", Kind::Eight, 1)],
    },
    Frame {
        ty: 0x1b, name: "PATH_RESPONSE", section: "RFC 9000, section 19.18", fields: &[plain("Type"), plain("Data")],
        shown: &[shown("data", Kind::Eight, 1)],
    },
    Frame {
        ty: 0x1c, name: "CONNECTION_CLOSE", section: "RFC 9000, section 19.19",
        fields: &[
            plain("Type"), plain("Error Code"), plain("Frame Type"), with("Reason Phrase", &["Reason Phrase Length"]),
        ],
        shown: &[
            shown("error_code", Kind::Code, 1), shown("frame_type", Kind::Type, 2), shown("reason", Kind::Text, 3),
        ],
    },
    Frame {
        ty: 0x1d, name: "CONNECTION_CLOSE", section: "RFC 9000, section 19.19",
        fields: &[plain("Type"), plain("Error Code"), with("Reason Phrase", &["Reason Phrase Length"])],
        shown: &[shown("error_code", Kind::Number, 1), shown("reason", Kind::Text, 2)],
    },
    Frame {
        ty: 0x1e, name: "HANDSHAKE_DONE", section: "RFC 9000, section 19.20", fields: &[plain("Type")], shown: &[],
    },
    Frame {
        ty: 0x1f, name: "IMMEDIATE_ACK", section: "draft-ietf-quic-ack-frequency, section 5", fields: &[plain("Type")],
        shown: &[],
    },
    Frame {
        ty: 0x30, name: "DATAGRAM", section: "RFC 9221, section 4", fields: &[plain("Type"), plain("Datagram Data")],
        shown: &[shown("data", Kind::Data, 1)],
    },
    Frame {
        ty: 0x31, name: "DATAGRAM", section: "RFC 9221, section 4",
        fields: &[plain("Type"), with("Datagram Data", &["Length"])], shown: &[shown("data", Kind::Data, 1)],
    },
    Frame {
        ty: 0xaf, name: "ACK_FREQUENCY", section: "draft-ietf-quic-ack-frequency, section 4",
        fields: &[
            plain("Type"), plain("Sequence Number"), plain("Ack-Eliciting Threshold"),
            plain("Requested Max Ack Delay"), plain("Reordering Threshold"),
        ],
        shown: &[
            shown("sequence", Kind::Number, 1), shown("ack_eliciting_threshold", Kind::Number, 2),
            shown("request_max_ack_delay", Kind::Number, 3), shown("reordering_threshold", Kind::Number, 4),
        ],
    },
];

/// The headers.
pub const HEADERS: &[Header] = &[
    Header {
        version: 0x0, type_bits: 0, name: "1-RTT", section: "RFC 9000, section 17.3.1",
        fields: &[plain("First Byte"), plain("Destination Connection ID")],
        after: &["Packet Number", "Packet Payload"], shown: &["dst", "spin", "number_at"],
    },
    Header {
        version: 0x0, type_bits: 0, name: "Version Negotiation", section: "RFC 9000, section 17.2.1",
        fields: &[
            plain("First Byte"), plain("Version"),
            with("Destination Connection ID", &["Destination Connection ID Length"]),
            with("Source Connection ID", &["Source Connection ID Length"]),
        ],
        after: &["Supported Version"], shown: &["dst", "src", "versions"],
    },
    Header {
        version: 0x1, type_bits: 0, name: "Initial", section: "RFC 9000, section 17.2.2",
        fields: &[
            plain("First Byte"), plain("Version"),
            with("Destination Connection ID", &["Destination Connection ID Length"]),
            with("Source Connection ID", &["Source Connection ID Length"]), plain("Version"), plain("Token Length"),
            plain("Token"), plain("Length"),
        ],
        after: &["Packet Number", "Packet Payload"],
        shown: &["dst", "src", "version", "token_at", "token", "len", "number_at"],
    },
    Header {
        version: 0x1, type_bits: 1, name: "0-RTT", section: "RFC 9000, section 17.2.3",
        fields: &[
            plain("First Byte"), plain("Version"),
            with("Destination Connection ID", &["Destination Connection ID Length"]),
            with("Source Connection ID", &["Source Connection ID Length"]), plain("Version"), plain("Length"),
        ],
        after: &["Packet Number", "Packet Payload"], shown: &["dst", "src", "version", "len", "number_at"],
    },
    Header {
        version: 0x1, type_bits: 2, name: "Handshake", section: "RFC 9000, section 17.2.4",
        fields: &[
            plain("First Byte"), plain("Version"),
            with("Destination Connection ID", &["Destination Connection ID Length"]),
            with("Source Connection ID", &["Source Connection ID Length"]), plain("Version"), plain("Length"),
        ],
        after: &["Packet Number", "Packet Payload"], shown: &["dst", "src", "version", "len", "number_at"],
    },
    Header {
        version: 0x1, type_bits: 3, name: "Retry", section: "RFC 9000, section 17.2.5",
        fields: &[
            plain("First Byte"), plain("Version"),
            with("Destination Connection ID", &["Destination Connection ID Length"]),
            with("Source Connection ID", &["Source Connection ID Length"]), plain("Version"),
        ],
        after: &["Retry Token", "Retry Integrity Tag"], shown: &["dst", "src", "version", "token", "tag"],
    },
    Header {
        version: 0x6b3343cf, type_bits: 1, name: "Initial", section: "RFC 9000, section 17.2.2",
        fields: &[
            plain("First Byte"), plain("Version"),
            with("Destination Connection ID", &["Destination Connection ID Length"]),
            with("Source Connection ID", &["Source Connection ID Length"]), plain("Version"), plain("Token Length"),
            plain("Token"), plain("Length"),
        ],
        after: &["Packet Number", "Packet Payload"],
        shown: &["dst", "src", "version", "token_at", "token", "len", "number_at"],
    },
    Header {
        version: 0x6b3343cf, type_bits: 2, name: "0-RTT", section: "RFC 9000, section 17.2.3",
        fields: &[
            plain("First Byte"), plain("Version"),
            with("Destination Connection ID", &["Destination Connection ID Length"]),
            with("Source Connection ID", &["Source Connection ID Length"]), plain("Version"), plain("Length"),
        ],
        after: &["Packet Number", "Packet Payload"], shown: &["dst", "src", "version", "len", "number_at"],
    },
    Header {
        version: 0x6b3343cf, type_bits: 3, name: "Handshake", section: "RFC 9000, section 17.2.4",
        fields: &[
            plain("First Byte"), plain("Version"),
            with("Destination Connection ID", &["Destination Connection ID Length"]),
            with("Source Connection ID", &["Source Connection ID Length"]), plain("Version"), plain("Length"),
        ],
        after: &["Packet Number", "Packet Payload"], shown: &["dst", "src", "version", "len", "number_at"],
    },
    Header {
        version: 0x6b3343cf, type_bits: 0, name: "Retry", section: "RFC 9000, section 17.2.5",
        fields: &[
            plain("First Byte"), plain("Version"),
            with("Destination Connection ID", &["Destination Connection ID Length"]),
            with("Source Connection ID", &["Source Connection ID Length"]), plain("Version"),
        ],
        after: &["Retry Token", "Retry Integrity Tag"], shown: &["dst", "src", "version", "token", "tag"],
    },
];

/// The parameters that the library knows, in the order in which it writes them.
pub const PARAMETERS: &[Parameter] = &[
    Parameter {
        id: 0x1, name: "max_idle_timeout", quinn_proto: "max_idle_timeout", kind: Kind::Number, default: Some(0),
        wanted: "a number of variable length", section: "RFC 9000, section 18.2", is_servers: false, may_repeat: false,
        is_shortest: true,
    },
    Parameter {
        id: 0x3, name: "max_udp_payload_size", quinn_proto: "max_udp_payload_size", kind: Kind::Number,
        default: Some(65527), wanted: "a number of 1200 or more", section: "RFC 9000, section 18.2", is_servers: false,
        may_repeat: false, is_shortest: true,
    },
    Parameter {
        id: 0x4, name: "initial_max_data", quinn_proto: "initial_max_data", kind: Kind::Number, default: Some(0),
        wanted: "a number of variable length", section: "RFC 9000, section 18.2", is_servers: false, may_repeat: false,
        is_shortest: true,
    },
    Parameter {
        id: 0x5, name: "initial_max_stream_data_bidi_local", quinn_proto: "initial_max_stream_data_bidi_local",
        kind: Kind::Number, default: Some(0), wanted: "a number of variable length", section: "RFC 9000, section 18.2",
        is_servers: false, may_repeat: false, is_shortest: true,
    },
    Parameter {
        id: 0x6, name: "initial_max_stream_data_bidi_remote", quinn_proto: "initial_max_stream_data_bidi_remote",
        kind: Kind::Number, default: Some(0), wanted: "a number of variable length", section: "RFC 9000, section 18.2",
        is_servers: false, may_repeat: false, is_shortest: true,
    },
    Parameter {
        id: 0x7, name: "initial_max_stream_data_uni", quinn_proto: "initial_max_stream_data_uni", kind: Kind::Number,
        default: Some(0), wanted: "a number of variable length", section: "RFC 9000, section 18.2", is_servers: false,
        may_repeat: false, is_shortest: true,
    },
    Parameter {
        id: 0x8, name: "initial_max_streams_bidi", quinn_proto: "initial_max_streams_bidi", kind: Kind::Number,
        default: Some(0), wanted: "a number of at most 2^60", section: "RFC 9000, section 18.2", is_servers: false,
        may_repeat: false, is_shortest: true,
    },
    Parameter {
        id: 0x9, name: "initial_max_streams_uni", quinn_proto: "initial_max_streams_uni", kind: Kind::Number,
        default: Some(0), wanted: "a number of at most 2^60", section: "RFC 9000, section 18.2", is_servers: false,
        may_repeat: false, is_shortest: true,
    },
    Parameter {
        id: 0xa, name: "ack_delay_exponent", quinn_proto: "ack_delay_exponent", kind: Kind::Number, default: Some(3),
        wanted: "a number of at most 20", section: "RFC 9000, section 18.2", is_servers: false, may_repeat: false,
        is_shortest: true,
    },
    Parameter {
        id: 0xb, name: "max_ack_delay", quinn_proto: "max_ack_delay", kind: Kind::Number, default: Some(25),
        wanted: "a number below 2^14", section: "RFC 9000, section 18.2", is_servers: false, may_repeat: false,
        is_shortest: true,
    },
    Parameter {
        id: 0xe, name: "active_connection_id_limit", quinn_proto: "active_connection_id_limit", kind: Kind::Number,
        default: Some(2), wanted: "a number of 2 or more", section: "RFC 9000, section 18.2", is_servers: false,
        may_repeat: false, is_shortest: true,
    },
    Parameter {
        id: 0x2, name: "stateless_reset_token", quinn_proto: "stateless_reset_token", kind: Kind::Bytes, default: None,
        wanted: "16 bytes", section: "RFC 9000, section 18.2", is_servers: true, may_repeat: false, is_shortest: false,
    },
    Parameter {
        id: 0xc, name: "disable_active_migration", quinn_proto: "disable_active_migration", kind: Kind::Flag,
        default: None, wanted: "no bytes", section: "RFC 9000, section 18.2", is_servers: false, may_repeat: false,
        is_shortest: false,
    },
    Parameter {
        id: 0x20, name: "max_datagram_frame_size", quinn_proto: "max_datagram_frame_size", kind: Kind::Number,
        default: None, wanted: "a number of variable length", section: "RFC 9221, section 3", is_servers: false,
        may_repeat: false, is_shortest: false,
    },
    Parameter {
        id: 0xd, name: "preferred_address", quinn_proto: "preferred_address", kind: Kind::Address, default: None,
        wanted: "an address, an id that isn't empty, a token", section: "RFC 9000, section 18.2", is_servers: true,
        may_repeat: false, is_shortest: false,
    },
    Parameter {
        id: 0x0, name: "original_destination_connection_id", quinn_proto: "original_dst_cid", kind: Kind::Bytes,
        default: None, wanted: "an id of at most 20 bytes", section: "RFC 9000, section 18.2", is_servers: true,
        may_repeat: false, is_shortest: false,
    },
    Parameter {
        id: 0xf, name: "initial_source_connection_id", quinn_proto: "initial_src_cid", kind: Kind::Bytes,
        default: None, wanted: "an id of at most 20 bytes", section: "RFC 9000, section 18.2", is_servers: false,
        may_repeat: false, is_shortest: false,
    },
    Parameter {
        id: 0x10, name: "retry_source_connection_id", quinn_proto: "retry_src_cid", kind: Kind::Bytes, default: None,
        wanted: "an id of at most 20 bytes", section: "RFC 9000, section 18.2", is_servers: true, may_repeat: false,
        is_shortest: false,
    },
    Parameter {
        id: 0x2ab2, name: "grease_quic_bit", quinn_proto: "grease_quic_bit", kind: Kind::Flag, default: None,
        wanted: "no bytes", section: "RFC 9287, section 3", is_servers: false, may_repeat: true, is_shortest: false,
    },
    Parameter {
        id: 0xff04de1b, name: "min_ack_delay", quinn_proto: "min_ack_delay", kind: Kind::Number, default: None,
        wanted: "a number of microseconds, at most max_ack_delay", section: "draft-ietf-quic-ack-frequency, section 3",
        is_servers: false, may_repeat: true, is_shortest: false,
    },
];

/// The fields of a preferred address.
pub const PREFERRED_ADDRESS: &[Field] = &[
    plain("IPv4 Address"),
    plain("IPv4 Port"),
    plain("IPv6 Address"),
    plain("IPv6 Port"),
    with("Connection ID", &["Connection ID Length"]),
    plain("Stateless Reset Token"),
];

/// The reasons.
pub const REASONS: &[Reason] = &[
    Reason { number: -1, close_code: 0x1, section: "", text: "invalid argument" },
    Reason { number: -2, close_code: 0x1, section: "", text: "place outside of the bytes" },
    Reason { number: -3, close_code: 0x1, section: "", text: "no such kind" },
    Reason { number: -5, close_code: 0x1, section: "", text: "number out of range" },
    Reason { number: -6, close_code: 0x1, section: "", text: "length out of range" },
    Reason { number: -7, close_code: 0x1, section: "", text: "ranges not sorted or touching" },
    Reason {
        number: -8, close_code: 0x1, section: "", text: "parameters that the peer would refuse",
    },
    Reason { number: -9, close_code: 0x1, section: "", text: "buffer too small" },
    Reason {
        number: -20, close_code: 0xa, section: "RFC 9000, section 12.4", text: "packet payload is empty",
    },
    Reason {
        number: -21, close_code: 0x7, section: "RFC 9000, section 20.1", text: "unexpected end",
    },
    Reason {
        number: -22, close_code: 0x7, section: "RFC 9000, section 12.4", text: "invalid frame ID",
    },
    Reason {
        number: -23, close_code: 0x7, section: "RFC 9000, sections 19.3.1, 19.7, 19.15", text: "malformed",
    },
    Reason {
        number: -24, close_code: 0xa, section: "RFC 9000, section 12.4", text: "frame type not in shortest form",
    },
    Reason {
        number: -25, close_code: 0x7, section: "RFC 9000, sections 19.6, 19.8, 19.11, 19.14", text: "limit exceeded",
    },
    Reason {
        number: -26, close_code: 0xa, section: "RFC 9000, section 12.4", text: "not permitted in this packet",
    },
    Reason {
        number: -27, close_code: 0xa, section: "RFC 9000, sections 19.7, 19.20", text: "not permitted from this side",
    },
    Reason {
        number: -28, close_code: 0x5, section: "RFC 9000, sections 19.4, 19.5, 19.8, 19.10, 19.13",
        text: "not permitted on this stream",
    },
    Reason {
        number: -40, close_code: 0x0, section: "RFC 9000, section 17", text: "unexpected end of packet",
    },
    Reason {
        number: -41, close_code: 0x0, section: "RFC 9000, sections 17.2, 17.3.1", text: "fixed bit unset",
    },
    Reason {
        number: -42, close_code: 0x0, section: "RFC 9001, section 5.4.2", text: "packet too small",
    },
    Reason {
        number: -43, close_code: 0x0, section: "RFC 9000, section 17.2", text: "malformed cid",
    },
    Reason {
        number: -44, close_code: 0x0, section: "RFC 9000, section 17.2.2", text: "token out of bounds",
    },
    Reason {
        number: -45, close_code: 0x0, section: "RFC 9000, section 6.1", text: "unsupported version",
    },
    Reason {
        number: -46, close_code: 0x0, section: "RFC 9000, section 12.2",
        text: "packet too short to contain payload length",
    },
    Reason {
        number: -47, close_code: 0x0, section: "RFC 9000, section 17.2.5", text: "Retry without a token or a tag",
    },
    Reason { number: -60, close_code: 0x8, section: "RFC 9000, section 7.4", text: "malformed" },
    Reason {
        number: -61, close_code: 0x8, section: "RFC 9000, sections 7.4, 18.2", text: "illegal value",
    },
];
