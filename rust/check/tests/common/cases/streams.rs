//! Of the rules of src/rules/streams.rs. Each side permits 1000 bytes on all streams, 500 on each, and four streams of
//! each type.
use super::{At, Case, Spot, broken, last, lawful, plant, swap_last};
use crate::made::{Client, Server, Short};
use crate::talk::Talk;

// The last two bytes of stream 0 at offset 0, which end it.
const FIN: &[u8] = &[0x0b, 0, 2, 0x61, 0x62];

pub fn all() -> Vec<Case> {
    [by_ids(), final_size(), resets(), limits()].into_iter().flatten().collect()
}

fn by_ids() -> Vec<Case> {
    vec![
        broken(
            ("stream-direction", "stream", "19.8"),
            "The client sends data on stream 3, the server's first unidirectional one.",
            |talk| plant(talk.handshake(), Client, &[0x0a, 3, 1, 0x61], 0..4),
        ),
        broken(
            ("stream-direction", "max-stream-data", "19.10"),
            "The client sends MAX_STREAM_DATA for stream 2, its own first unidirectional one.",
            |talk| plant(talk.handshake(), Client, &[0x11, 2, 5], 0..3),
        ),
        broken(
            ("stream-direction", "stop-sending", "19.5"),
            "The client sends STOP_SENDING for stream 2, its own first unidirectional one.",
            |talk| plant(talk.handshake(), Client, &[0x05, 2, 0], 0..3),
        ),
        broken(
            ("stream-direction", "reset-stream", "19.4"),
            "The client sends RESET_STREAM for stream 3, the server's first unidirectional one.",
            |talk| plant(talk.handshake(), Client, &[0x04, 3, 0, 0], 0..4),
        ),
        broken(
            ("stream-direction", "blocked", "19.13"),
            "The client sends STREAM_DATA_BLOCKED for stream 3, the server's first unidirectional one.",
            |talk| plant(talk.handshake(), Client, &[0x15, 3, 0], 0..3),
        ),
        lawful(
            ("stream-direction", "own", "19.8"),
            "The client sends data on stream 2, its own first unidirectional one.",
            |talk| plant(talk.handshake(), Client, &[0x0a, 2, 1, 0x61], 0..4),
        ),
        broken(
            ("unopened-stream", "stream", "19.8"),
            "The client sends data on stream 1, the server's first bidirectional one, which it hasn't opened.",
            |talk| plant(talk.handshake(), Client, &[0x0a, 1, 1, 0x61], 0..4),
        ),
        broken(
            ("unopened-stream", "max-stream-data", "19.10"),
            "The client sends MAX_STREAM_DATA for stream 1, the server's first bidirectional one, which it hasn't opened.",
            |talk| plant(talk.handshake(), Client, &[0x11, 1, 5], 0..3),
        ),
        lawful(
            ("unopened-stream", "later-stream", "19.8"),
            "The client sends data on stream 1, after the server opened stream 5, and so 1 too.",
            |talk| {
                talk.handshake().short(Server, &[0x0a, 5, 0]);
                plant(talk, Client, &[0x0a, 1, 1, 0x61], 0..4)
            },
        ),
    ]
}

fn final_size() -> Vec<Case> {
    vec![
        broken(("final-size", "data", "4.5"), "Data of a stream end a byte beyond its final size.", |talk| {
            talk.handshake().short(Client, FIN);
            plant(talk, Client, &[0x0e, 0, 2, 1, 0x63], 0..5)
        }),
        broken(("final-size", "reset", "4.5"), "RESET_STREAM has another final size than the stream.", |talk| {
            talk.handshake().short(Client, FIN);
            plant(talk, Client, &[4, 0, 0, 3], 0..4)
        }),
        broken(
            ("final-size", "smaller", "4.5"),
            "The final size is below the offset up to which data were sent.",
            |talk| {
                talk.handshake().short(Client, &[0x0a, 0, 3, 1, 2, 3]);
                plant(talk, Client, FIN, 0..5)
            },
        ),
        lawful(
            ("final-size", "again", "4.5"),
            "The last data of a stream are sent again, and RESET_STREAM has the same final size.",
            |talk| {
                talk.handshake().short(Client, FIN);
                plant(talk, Client, &[FIN, &[4, 0, 0, 2]].concat(), 5..9)
            },
        ),
    ]
}

fn resets() -> Vec<Case> {
    // A byte of stream 0, and RESET_STREAM with that final size.
    const DATA: &[u8] = &[0x0a, 0, 1, 0x61];
    const RESET: &[u8] = &[4, 0, 0, 1];
    vec![
        broken(
            ("after-reset", "stream", "3.3"),
            "The client sends data of a stream again in a packet after that with RESET_STREAM.",
            |talk| {
                talk.handshake().short(Client, DATA).short(Client, RESET);
                plant(talk, Client, DATA, 0..4)
            },
        ),
        broken(
            ("after-reset", "blocked", "3.3"),
            "The client sends STREAM_DATA_BLOCKED in a packet after that with RESET_STREAM.",
            |talk| {
                talk.handshake().short(Client, RESET);
                plant(talk, Client, &[0x15, 0, 1], 0..3)
            },
        ),
        broken(
            ("reset-changed", "code", "13.3"),
            "The client sends RESET_STREAM again, with another error code.",
            |talk| {
                talk.handshake().short(Client, RESET);
                plant(talk, Client, &[4, 0, 7, 1], 0..4)
            },
        ),
        lawful(
            ("reset-changed", "same", "13.3"),
            "The client sends RESET_STREAM again, and one of another stream with another error code.",
            |talk| {
                talk.handshake().short(Client, RESET);
                plant(talk, Client, &[RESET, &[4, 4, 7, 1]].concat(), 0..4)
            },
        ),
        lawful(
            ("after-reset", "reordered", "3.3"),
            "A packet with data of a stream comes after one with a greater number that has RESET_STREAM.",
            |talk| {
                talk.handshake().short(Client, DATA).short(Client, RESET);
                swap_last(talk);
                let spot = last(talk, Client, Short, 1, At::Payload(0..4));
                talk.later();
                spot
            },
        ),
    ]
}

fn limits() -> Vec<Case> {
    vec![
        broken(
            ("stream-count", "fifth", "4.6"),
            "The server permits four bidirectional streams, and the client uses stream 16, the fifth.",
            |talk| sent(talk, &[(16, 1)]),
        ),
        lawful(
            ("stream-count", "fourth", "4.6"),
            "The server permits four bidirectional streams, and the client uses stream 12, the fourth.",
            |talk| sent(talk, &[(12, 1)]),
        ),
        lawful(
            ("stream-count", "more", "4.6"),
            "The client uses stream 16, the fifth bidirectional one, after the server's MAX_STREAMS of 5.",
            |talk| {
                talk.handshake().short(Server, &[0x12, 5]);
                plant(talk, Client, &data(16, 1), 0..5)
            },
        ),
        broken(
            ("stream-data-limit", "501", "4.1"),
            "The server permits 500 bytes on a stream, and the client sends 501.",
            |talk| sent(talk, &[(0, 501)]),
        ),
        lawful(
            ("stream-data-limit", "500", "4.1"),
            "The server permits 500 bytes on a stream, and the client sends 500.",
            |talk| sent(talk, &[(0, 500)]),
        ),
        broken(
            ("data-limit", "1001", "4.1"),
            "The server permits 1000 bytes on all streams, and the client sends 1001 on three.",
            |talk| sent(talk, &[(0, 500), (4, 500), (8, 1)]),
        ),
        lawful(
            ("data-limit", "1000", "4.1"),
            "The server permits 1000 bytes on all streams, and the client sends 1000 on three.",
            |talk| sent(talk, &[(0, 500), (4, 499), (8, 1)]),
        ),
    ]
}

fn data(id: u8, len: u16) -> Vec<u8> {
    [&[0x0a, id][..], &(0x4000 | len).to_be_bytes(), &vec![0; len.into()]].concat()
}

// So many bytes on each of these streams in a packet; the last is meant.
fn sent(talk: &mut Talk, streams: &[(u8, u16)]) -> Spot {
    let frames: Vec<_> = streams.iter().map(|(id, len)| data(*id, *len)).collect();
    let (payload, len) = (frames.concat(), frames[frames.len() - 1].len());
    plant(talk.handshake(), Client, &payload, payload.len() - len..payload.len())
}
