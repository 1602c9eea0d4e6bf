//! Every beginning of every worked line's bytes, and what is printed for each. The expected output comes from a
//! separate plain model that was written from the RFC's headers; it agrees on every line that `quic_replay` replays.

pub(super) const LINES: &str = "\nc0\nc000\nc00000\nc0000000\nc000000001\nc00000000108\nc0000000010806\nc0000000010806b8\nc0000000010806b858\n\
    c0000000010806b858ec\nc0000000010806b858ec6f\nc0000000010806b858ec6f80\nc0000000010806b858ec6f8045\n\
    c0000000010806b858ec6f80452b\nc0000000010806b858ec6f80452b00\nc0000000010806b858ec6f80452b0002\n\
    c0000000010806b858ec6f80452b0002aa\nc0000000010806b858ec6f80452b0002aabb\n\
    c0000000010806b858ec6f80452b0002aabb40\nc0000000010806b858ec6f80452b0002aabb4003\n\
    c0000000010806b858ec6f80452b0002aabb400301\nc0000000010806b858ec6f80452b0002aabb40030102\n\
    c0000000010806b858ec6f80452b0002aabb4003010203\nc0000000010806b858ec6f80452b0002aabb400301020341\n\ne0\ne000\n\
    e00000\ne0000000\ne000000001\ne00000000100\ne0000000010000\ne000000001000002\ne000000001000002aa\n\
    e000000001000002aabb\ne000000001000002aabb41\n\nf0\nf000\nf00000\nf0000000\nf000000001\nf00000000101\n\
    f00000000101aa\nf00000000101aa00\nf00000000101aa00ff\nf00000000101aa00ffff\n\nc0\nc000\nc00000\nc0000000\n\
    c000000000\nc00000000001\nc00000000001aa\nc00000000001aa01\nc00000000001aa01bb\nc00000000001aa01bb00\n\
    c00000000001aa01bb0000\nc00000000001aa01bb000000\nc00000000001aa01bb00000001\n\ne0\ne000\ne00000\ne0000000\n\
    e000000001\ne00000000100\ne0000000010000\ne000000001000000\n\ne0\ne0ff\ne0ff00\ne0ff0000\ne0ff00001d\n\
    e0ff00001d00\ne0ff00001d0000\ne0ff00001d000000\n\ne0\ne000\ne00000\ne0000000\ne000000001\ne00000000100\n\
    e0000000010000\ne000000001000002\ne000000001000002aa\n\ne0\ne000\ne00000\ne0000000\ne000000001\ne00000000100\n\
    e0000000010000\ne0000000010000ff\ne0000000010000ffff\ne0000000010000ffffff\ne0000000010000ffffffff\n\
    e0000000010000ffffffffff\ne0000000010000ffffffffffff\ne0000000010000ffffffffffffff\n\
    e0000000010000ffffffffffffffff\n\nc0\nc000\nc00000\nc0000000\nc000000001\nc00000000100\nc0000000010000\n\
    c000000001000005\nc00000000100000501\n\nc0\nc000\nc00000\nc0000000\nc000000001\nc00000000100\nc0000000010000\n\
    c0000000010000ff\nc0000000010000ffff\nc0000000010000ffffff\nc0000000010000ffffffff\nc0000000010000ffffffffff\n\
    c0000000010000ffffffffffff\nc0000000010000ffffffffffffff\nc0000000010000ffffffffffffffff\n\nc0\nc000\nc00000\n\
    c0000000\nc000000001\nc00000000100\nc0000000010000\n\nc0\nc000\nc00000\n\n\nc0\nc000\nc00000\nc0000000\n\
    c000000001\nc00000000115\n\nc0\nc000\nc00000\nc0000000\nc00000000a\nc00000000a00\nc00000000a0000\n\ne0\ne000\n\
    e00000\ne0000000\ne000000001\ne00000000100\ne0000000010000\ne000000001000000\ne00000000100000000\n\nf0\nf06b\n\
    f06b33\nf06b3343\nf06b3343cf\nf06b3343cf00\nf06b3343cf0000\nf06b3343cf000002\nf06b3343cf000002aa\n\
    f06b3343cf000002aabb\nf06b3343cf000002aabb41\n\ne0\ne06b\ne06b33\ne06b3343\ne06b3343cf\ne06b3343cf00\n\
    e06b3343cf0000\ne06b3343cf000002\ne06b3343cf000002aa\ne06b3343cf000002aabb\n\nc0\nc06b\nc06b33\nc06b3343\n\
    c06b3343cf\nc06b3343cf00\nc06b3343cf0000\nc06b3343cf0000ff\nc06b3343cf0000ffff\n\nd0\nd06b\nd06b33\nd06b3343\n\
    d06b3343cf\nd06b3343cf00\nd06b3343cf0000\nd06b3343cf000000\nd06b3343cf00000040\nd06b3343cf0000004001\n\
    d06b3343cf0000004001ff\n\ne0\ne000\ne00000\ne0000000\ne000000001\ne00000000100\ne0000000010000\n\
    e000000001000002\ne000000001000002aa\ne000000001000002aabb\ne000000001000002aabbf0\ne000000001000002aabbf06b\n\
    e000000001000002aabbf06b33\ne000000001000002aabbf06b3343\ne000000001000002aabbf06b3343cf\n\
    e000000001000002aabbf06b3343cf00\ne000000001000002aabbf06b3343cf0000\ne000000001000002aabbf06b3343cf000002\n\
    e000000001000002aabbf06b3343cf000002cc\ne000000001000002aabbf06b3343cf000002ccdd\n";

pub(super) const TEXT: &str = "error unexpected end of packet\nerror unexpected end of packet\nerror unexpected end of packet\n\
    error unexpected end of packet\nerror unexpected end of packet\nerror malformed cid\nerror malformed cid\n\
    error malformed cid\nerror malformed cid\nerror malformed cid\nerror malformed cid\nerror malformed cid\n\
    error malformed cid\nerror malformed cid\nerror malformed cid\nerror unexpected end of packet\n\
    error token out of bounds\nerror token out of bounds\nerror unexpected end of packet\n\
    error unexpected end of packet\nerror packet too short to contain payload length\n\
    error packet too short to contain payload length\nerror packet too short to contain payload length\n\
    0..23 initial dst 06b858ec6f80452b src - version 00000001 token 16..18\n\
    0..23 initial dst 06b858ec6f80452b src - version 00000001 token 16..18\n23..24 short dst -\n\
    error unexpected end of packet\nerror unexpected end of packet\nerror unexpected end of packet\n\
    error unexpected end of packet\nerror unexpected end of packet\nerror malformed cid\nerror malformed cid\n\
    error unexpected end of packet\nerror packet too short to contain payload length\n\
    error packet too short to contain payload length\n0..10 handshake dst - src - version 00000001\n\
    0..10 handshake dst - src - version 00000001\n10..11 short dst -\nerror unexpected end of packet\n\
    error unexpected end of packet\nerror unexpected end of packet\nerror unexpected end of packet\n\
    error unexpected end of packet\nerror malformed cid\nerror malformed cid\nerror malformed cid\n\
    0..8 retry dst aa src - version 00000001\n0..9 retry dst aa src - version 00000001\n\
    0..10 retry dst aa src - version 00000001\nerror unexpected end of packet\nerror unexpected end of packet\n\
    error unexpected end of packet\nerror unexpected end of packet\nerror unexpected end of packet\n\
    error malformed cid\nerror malformed cid\nerror malformed cid\nerror malformed cid\n\
    0..9 version-negotiation dst aa src bb version 00000000\n\
    0..10 version-negotiation dst aa src bb version 00000000\n\
    0..11 version-negotiation dst aa src bb version 00000000\n\
    0..12 version-negotiation dst aa src bb version 00000000\n\
    0..13 version-negotiation dst aa src bb version 00000000\nerror unexpected end of packet\n\
    error unexpected end of packet\nerror unexpected end of packet\nerror unexpected end of packet\n\
    error unexpected end of packet\nerror malformed cid\nerror malformed cid\nerror unexpected end of packet\n\
    0..8 handshake dst - src - version 00000001\nerror unexpected end of packet\nerror unexpected end of packet\n\
    error unexpected end of packet\nerror unexpected end of packet\nerror unexpected end of packet\n\
    error malformed cid\nerror malformed cid\nerror unexpected end of packet\n\
    0..8 handshake dst - src - version ff00001d\nerror unexpected end of packet\nerror unexpected end of packet\n\
    error unexpected end of packet\nerror unexpected end of packet\nerror unexpected end of packet\n\
    error malformed cid\nerror malformed cid\nerror unexpected end of packet\n\
    error packet too short to contain payload length\nerror packet too short to contain payload length\n\
    error unexpected end of packet\nerror unexpected end of packet\nerror unexpected end of packet\n\
    error unexpected end of packet\nerror unexpected end of packet\nerror malformed cid\nerror malformed cid\n\
    error unexpected end of packet\nerror unexpected end of packet\nerror unexpected end of packet\n\
    error unexpected end of packet\nerror unexpected end of packet\nerror unexpected end of packet\n\
    error unexpected end of packet\nerror unexpected end of packet\n\
    error packet too short to contain payload length\nerror unexpected end of packet\n\
    error unexpected end of packet\nerror unexpected end of packet\nerror unexpected end of packet\n\
    error unexpected end of packet\nerror malformed cid\nerror malformed cid\nerror unexpected end of packet\n\
    error token out of bounds\nerror token out of bounds\nerror unexpected end of packet\n\
    error unexpected end of packet\nerror unexpected end of packet\nerror unexpected end of packet\n\
    error unexpected end of packet\nerror malformed cid\nerror malformed cid\nerror unexpected end of packet\n\
    error unexpected end of packet\nerror unexpected end of packet\nerror unexpected end of packet\n\
    error unexpected end of packet\nerror unexpected end of packet\nerror unexpected end of packet\n\
    error unexpected end of packet\nerror token out of bounds\nerror unexpected end of packet\n\
    error unexpected end of packet\nerror unexpected end of packet\nerror unexpected end of packet\n\
    error unexpected end of packet\nerror malformed cid\nerror malformed cid\nerror unexpected end of packet\n\
    error unexpected end of packet\nerror unexpected end of packet\nerror unexpected end of packet\n\
    error unexpected end of packet\nerror unexpected end of packet\nerror unexpected end of packet\n\
    error unexpected end of packet\nerror unexpected end of packet\nerror unexpected end of packet\n\
    error unexpected end of packet\nerror malformed cid\nerror malformed cid\nerror unexpected end of packet\n\
    error unexpected end of packet\nerror unexpected end of packet\nerror unexpected end of packet\n\
    error unexpected end of packet\nerror malformed cid\nerror malformed cid\nerror unsupported version a\n\
    error unexpected end of packet\nerror unexpected end of packet\nerror unexpected end of packet\n\
    error unexpected end of packet\nerror unexpected end of packet\nerror malformed cid\nerror malformed cid\n\
    error unexpected end of packet\n0..8 handshake dst - src - version 00000001\n\
    0..8 handshake dst - src - version 00000001\nerror fixed bit unset\nerror unexpected end of packet\n\
    error unexpected end of packet\nerror unexpected end of packet\nerror unexpected end of packet\n\
    error unexpected end of packet\nerror malformed cid\nerror malformed cid\nerror unexpected end of packet\n\
    error packet too short to contain payload length\nerror packet too short to contain payload length\n\
    0..10 handshake dst - src - version 6b3343cf\n0..10 handshake dst - src - version 6b3343cf\n10..11 short dst -\n\
    error unexpected end of packet\nerror unexpected end of packet\nerror unexpected end of packet\n\
    error unexpected end of packet\nerror unexpected end of packet\nerror malformed cid\nerror malformed cid\n\
    error unexpected end of packet\nerror packet too short to contain payload length\n\
    error packet too short to contain payload length\n0..10 0rtt dst - src - version 6b3343cf\n\
    error unexpected end of packet\nerror unexpected end of packet\nerror unexpected end of packet\n\
    error unexpected end of packet\nerror unexpected end of packet\nerror malformed cid\nerror malformed cid\n\
    0..7 retry dst - src - version 6b3343cf\n0..8 retry dst - src - version 6b3343cf\n\
    0..9 retry dst - src - version 6b3343cf\nerror unexpected end of packet\nerror unexpected end of packet\n\
    error unexpected end of packet\nerror unexpected end of packet\nerror unexpected end of packet\n\
    error malformed cid\nerror malformed cid\nerror unexpected end of packet\nerror unexpected end of packet\n\
    error unexpected end of packet\nerror packet too short to contain payload length\n\
    0..11 initial dst - src - version 6b3343cf token 8..8\nerror unexpected end of packet\n\
    error unexpected end of packet\nerror unexpected end of packet\nerror unexpected end of packet\n\
    error unexpected end of packet\nerror malformed cid\nerror malformed cid\nerror unexpected end of packet\n\
    error packet too short to contain payload length\nerror packet too short to contain payload length\n\
    0..10 handshake dst - src - version 00000001\n0..10 handshake dst - src - version 00000001\n\
    error unexpected end of packet\n0..10 handshake dst - src - version 00000001\nerror unexpected end of packet\n\
    0..10 handshake dst - src - version 00000001\nerror unexpected end of packet\n\
    0..10 handshake dst - src - version 00000001\nerror unexpected end of packet\n\
    0..10 handshake dst - src - version 00000001\nerror malformed cid\n\
    0..10 handshake dst - src - version 00000001\nerror malformed cid\n\
    0..10 handshake dst - src - version 00000001\nerror unexpected end of packet\n\
    0..10 handshake dst - src - version 00000001\nerror packet too short to contain payload length\n\
    0..10 handshake dst - src - version 00000001\nerror packet too short to contain payload length\n\
    0..10 handshake dst - src - version 00000001\n10..20 handshake dst - src - version 6b3343cf\n";
