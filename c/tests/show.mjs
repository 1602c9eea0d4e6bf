// node --experimental-wasm-memory64 show.mjs quic_wire.wasm MODE: what `quic-show MODE` prints, with the functions of
// the WebAssembly module, whose memory has 64-bit addresses, so that pointers and lengths are BigInts. Structs are
// those of quic_wire.h.
import fs from 'node:fs';

const [modulePath, mode, word] = process.argv.slice(2);
const { instance } = await WebAssembly.instantiate(fs.readFileSync(modulePath));
const wire = instance.exports;

const OK = 0, ITEM = 1;
const NO_TYPE = 0xffffffffffffffffn;
const PACKET_CID = -43, PACKET_VERSION = -45;
const KINDS = ['initial', '0rtt', 'handshake', 'retry', 'short', 'version-negotiation'];
const INITIAL = 0, SHORT = 4;
const VERSIONS = [1, 0xff00001d, 0xff00001e, 0xff00001f, 0xff000020, 0xff000021, 0xff000022, 0x6b3343cf];

// The module's memory from __heap_base on is the host's: the structs first, then the bytes of a line.
const base = Number(wire.__heap_base.value);
const at = { state: base, out: base + 64, versions: base + 384, bytes: base + 512 };

// The number of pages is a BigInt, which engines as old as node 20 don't accept.
function grow(pages) {
    try {
        wire.memory.grow(BigInt(pages));
    } catch (error) {
        if (!(error instanceof TypeError)) throw error;
        wire.memory.grow(pages);
    }
}

// Copies a line's bytes into memory, with room for as many after them, and returns a view of all memory.
function give(bytes) {
    const missing = at.bytes + 2 * bytes.length - wire.memory.buffer.byteLength;
    if (missing > 0) grow(Math.ceil(missing / 65536));
    new Uint8Array(wire.memory.buffer).set(bytes, at.bytes);
    return new DataView(wire.memory.buffer);
}

const pointer = BigInt;
const hex = (bytes) => Buffer.from(bytes).toString('hex');
const slice = (place, length) => new Uint8Array(wire.memory.buffer, place, length);
const id = (bytes) => (bytes.length === 0 ? '-' : hex(bytes));

// A C string.
function text(address) {
    const bytes = new Uint8Array(wire.memory.buffer, Number(address));
    return Buffer.from(bytes.subarray(0, bytes.indexOf(0))).toString();
}

// 64-bit values are returned as signed BigInts.
const unsigned = (word) => BigInt.asUintN(64, word);

function typeName(type) {
    const name = wire.quic_wire_type_name(type);
    return name === 0n ? `<unknown ${type.toString(16)}>` : text(name);
}

const error = (result) => `error ${text(wire.quic_wire_strerror(result))}`;
const invalid = (type, result) => `${error(result)}${type === NO_TYPE ? '' : ` in ${typeName(type)}`}`;

function frames(bytes, strict) {
    const view = give(bytes);
    const [state, out, payload] = [at.state, at.out, at.bytes].map(pointer);
    const length = BigInt(bytes.length);
    const READ_SHORT_TYPES = 0x001;
    let answer = wire.quic_wire_frames_init(state, payload, length, strict ? READ_SHORT_TYPES : 0);
    if (answer !== OK) return [error(answer)];
    const lines = [];
    while ((answer = wire.quic_wire_frames_next(state, payload, length, out)) === ITEM) {
        const [begin, end] = [view.getBigUint64(at.out + 8, true), view.getBigUint64(at.out + 16, true)];
        lines.push(`${begin}..${end} ${typeName(BigInt(view.getUint16(at.out, true)))}`);
    }
    if (answer !== OK) lines.push(invalid(unsigned(wire.quic_wire_error_type(out)), answer));
    return lines;
}

function canon(bytes) {
    const view = give(bytes);
    const length = BigInt(bytes.length);
    const dest = at.bytes + bytes.length;
    view.setBigUint64(at.out + 8, NO_TYPE, true);
    const answer = wire.quic_wire_canonical(pointer(at.bytes), length, pointer(dest), length, pointer(at.out));
    const [len, lastType] = [0, 8].map((place) => view.getBigUint64(at.out + place, true));
    return [answer === OK ? hex(slice(dest, Number(len))) : invalid(lastType, answer)];
}

// The line of a packet that begins at an offset in its datagram, from its header at `at.out`.
function packet(view, begin) {
    const [kind, first, dcidLen, scidLen] = slice(at.out, 4);
    const [end, token, tokenLen] = [12, 16, 20].map((place) => view.getUint32(at.out + place, true));
    const version = view.getUint32(at.out + 4, true).toString(16).padStart(8, '0');
    const dcid = at.bytes + begin + (first < 0x80 ? 1 : 6);
    const parts = [`${begin}..${begin + end} ${KINDS[kind]} dst ${id(slice(dcid, dcidLen))}`];
    if (kind !== SHORT) parts.push(`src ${id(slice(dcid + dcidLen + 1, scidLen))} version ${version}`);
    if (kind === INITIAL) parts.push(`token ${token}..${token + tokenLen}`);
    return parts.join(' ');
}

const refused = (result, version) => `${error(result)}${result === PACKET_VERSION ? ` ${version.toString(16)}` : ''}`;

// Where the packet ends that begins at an offset in the datagram, with its header at `at.out`, or why there is none.
function readHeader(bytes, begin, idLen) {
    const [rest, versions, out] = [at.bytes + begin, at.versions, at.out].map(pointer);
    const [left, count] = [bytes.length - begin, VERSIONS.length].map(BigInt);
    const end = Number(wire.quic_wire_header_read(rest, left, idLen, versions, count, 0, out));
    const hasLongId = () => slice(at.out + 2, 2).some((length) => length > 20);
    return end === PACKET_VERSION && hasLongId() ? PACKET_CID : end;
}

function packets(bytes, idLen) {
    const view = give(bytes);
    VERSIONS.forEach((version, i) => view.setUint32(at.versions + 4 * i, version, true));
    const lines = [];
    let begin = 0;
    do {
        const end = readHeader(bytes, begin, idLen);
        if (end < 0) return [...lines, refused(end, view.getUint32(at.out + 4, true))];
        lines.push(packet(view, begin));
        begin += end;
    } while (begin < bytes.length);
    return lines;
}

// The numbers with a default, in the order of quic_wire_params, from its second 64-bit field on.
const NUMBERS = [
    ['max_idle_timeout', 0n], ['max_udp_payload_size', 65527n], ['initial_max_data', 0n],
    ['initial_max_stream_data_bidi_local', 0n], ['initial_max_stream_data_bidi_remote', 0n],
    ['initial_max_stream_data_uni', 0n], ['initial_max_streams_bidi', 0n], ['initial_max_streams_uni', 0n],
    ['ack_delay_exponent', 3n], ['max_ack_delay', 25n], ['active_connection_id_limit', 2n],
];

// A preferred address as it is in a list.
function address(view, p) {
    const port = (place) => view.getUint16(p + place, true).toString(16).padStart(4, '0');
    const cid = slice(p + 192, view.getUint32(p + 124, true));
    const cidLen = cid.length.toString(16).padStart(2, '0');
    const [v4, v6, token] = [[260, 4], [244, 16], [228, 16]].map(([place, length]) => hex(slice(p + place, length)));
    return `${v4}${port(128)}${v6}${port(130)}${cidLen}${hex(cid)}${token}`;
}

// The size of quic_wire_params.
const PARAMS_SIZE = 264n;

function params(bytes, side) {
    const view = give(bytes);
    const p = at.out;
    const answer = wire.quic_wire_params_read(side, 0, pointer(at.bytes), BigInt(bytes.length), pointer(p), PARAMS_SIZE, 0n);
    if (answer !== OK) return [error(answer)];
    const present = view.getUint32(p, true);
    const cid = (lenPlace, place) => id(slice(p + place, view.getUint32(p + lenPlace, true)));
    const number = (place) => view.getBigUint64(p + place, true);
    const lines = NUMBERS.map(([name, normal], i) => [name, normal, number(8 + 8 * i)])
        .filter(([, normal, n]) => n !== normal).map(([name, , n]) => `${name} ${n}`);
    const optional = [
        [0x001, () => `stateless_reset_token ${hex(slice(p + 212, 16))}`],
        [0x002, () => 'disable_active_migration true'],
        [0x004, () => `max_datagram_frame_size ${number(96)}`],
        [0x008, () => `preferred_address ${address(view, p)}`],
        [0x040, () => `original_dst_cid ${cid(112, 132)}`],
        [0x080, () => `initial_src_cid ${cid(116, 152)}`],
        [0x100, () => `retry_src_cid ${cid(120, 172)}`],
        [0x200, () => 'grease_quic_bit true'],
        [0x400, () => `min_ack_delay ${number(104)}`],
    ];
    for (const [bit, line] of optional) if (present & bit) lines.push(line());
    return [...lines, 'ok'];
}

const MODES = {
    frames: (bytes) => frames(bytes, false),
    strict: (bytes) => frames(bytes, true),
    canon,
    datagram: (bytes) => packets(bytes, Number(word)),
    params: (bytes) => params(bytes, word === 'client' ? 0 : 1),
};

const lines = fs.readFileSync(0, 'latin1').split('\n');
if (lines.at(-1) === '') lines.pop();
const printed = lines.map((line) => line.replace(/\r$/, '')).flatMap((line) =>
    /^([0-9a-f]{2})*$/i.test(line) ? MODES[mode](Buffer.from(line, 'hex')) : ['error not hexadecimal']);
process.stdout.write(printed.map((line) => `${line}\n`).join(''));
process.exitCode = printed.some((line) => line.startsWith('error ')) ? 1 : 0;
