//! Every beginning of the bytes of every worked payload, and the lines that are printed for it, separated by bars. The
//! expected output comes from a separate plain model that was written from the RFCs' frames (RFC 9000, section 19; RFC
//! 9221, section 4). On the payloads that `quic_show` prints it agrees with quinn-proto.

pub(super) const BEGINNINGS: &str = "|error packet payload is empty\n\
40|error unexpected end\n\
4000|0..2 PADDING\n\
40000a|0..2 PADDING|error unexpected end in STREAM\n\
40000a00|0..2 PADDING|error unexpected end in STREAM\n\
40000a0001|0..2 PADDING|error unexpected end in STREAM\n\
40000a000161|0..2 PADDING|2..6 STREAM\n\
80|error unexpected end\n\
8000|error unexpected end\n\
800000|error unexpected end\n\
80000001|0..4 PING\n\
06|error unexpected end in CRYPTO\n\
0600|error unexpected end in CRYPTO\n\
060002|error unexpected end in CRYPTO\n\
06000268|error unexpected end in CRYPTO\n\
0600026869|0..5 CRYPTO\n\
0c|error unexpected end in STREAM\n\
0c04|error unexpected end in STREAM\n\
0c0440|error unexpected end in STREAM\n\
0c044010|0..4 STREAM\n\
0c04401061|0..5 STREAM\n\
0c0440106162|0..6 STREAM\n\
060003|error unexpected end in CRYPTO\n\
06000368|error unexpected end in CRYPTO\n\
0600036869|error unexpected end in CRYPTO\n\
01|0..1 PING\n\
010a|0..1 PING|error unexpected end in STREAM\n\
010a00|0..1 PING|error unexpected end in STREAM\n\
010a0005|0..1 PING|error unexpected end in STREAM\n\
010a000561|0..1 PING|error unexpected end in STREAM\n\
010a00056162|0..1 PING|error unexpected end in STREAM\n\
010a0005616201|0..1 PING|error unexpected end in STREAM\n\
02|error unexpected end in ACK\n\
ff|error unexpected end\n\
ffff|error unexpected end\n\
ffffff|error unexpected end\n\
ffffffff|error unexpected end\n\
ffffffffff|error unexpected end\n\
ffffffffffff|error unexpected end\n\
ffffffffffffff|error unexpected end\n\
ffffffffffffffff|error invalid frame ID in <unknown 3fffffffffffffff>\n\
0140|0..1 PING|error unexpected end in PING\n\
21|error invalid frame ID in <unknown 21>\n\
0c04ff|error unexpected end in STREAM\n\
0d|error unexpected end in STREAM\n\
0d00|error unexpected end in STREAM\n\
0d0000|0..3 STREAM\n\
04|error unexpected end in RESET_STREAM\n\
0400|error unexpected end in RESET_STREAM\n\
040001|error unexpected end in RESET_STREAM\n\
04000102|0..4 RESET_STREAM\n\
07|error unexpected end in NEW_TOKEN\n\
0700|0..2 NEW_TOKEN\n\
1a|error unexpected end in PATH_CHALLENGE\n\
1a01|error unexpected end in PATH_CHALLENGE\n\
1a0102|error unexpected end in PATH_CHALLENGE\n\
1a010203|error unexpected end in PATH_CHALLENGE\n\
1a01020304|error unexpected end in PATH_CHALLENGE\n\
1a0102030405|error unexpected end in PATH_CHALLENGE\n\
1a010203040506|error unexpected end in PATH_CHALLENGE\n\
1a01020304050607|error unexpected end in PATH_CHALLENGE\n\
1a0102030405060708|0..9 PATH_CHALLENGE\n\
31|error unexpected end in DATAGRAM\n\
3102|error unexpected end in DATAGRAM\n\
310268|error unexpected end in DATAGRAM\n\
31026869|0..4 DATAGRAM\n\
3102686901|0..4 DATAGRAM|4..5 PING\n\
30|0..1 DATAGRAM\n\
3068|0..2 DATAGRAM\n\
306869|0..3 DATAGRAM\n\
30686901|0..4 DATAGRAM\n\
40af|error unexpected end in ACK_FREQUENCY\n\
40af2a|error unexpected end in ACK_FREQUENCY\n\
40af2a14|error unexpected end in ACK_FREQUENCY\n\
40af2a1480|error unexpected end in ACK_FREQUENCY\n\
40af2a148000|error unexpected end in ACK_FREQUENCY\n\
40af2a148000c3|error unexpected end in ACK_FREQUENCY\n\
40af2a148000c350|error unexpected end in ACK_FREQUENCY\n\
40af2a148000c35001|0..9 ACK_FREQUENCY\n\
18|error unexpected end in NEW_CONNECTION_ID\n\
1805|error unexpected end in NEW_CONNECTION_ID\n\
180502|error unexpected end in NEW_CONNECTION_ID\n\
18050202|error unexpected end in NEW_CONNECTION_ID\n\
18050202aa|error unexpected end in NEW_CONNECTION_ID\n\
18050202aabb|error unexpected end in NEW_CONNECTION_ID\n\
18050202aabb11|error unexpected end in NEW_CONNECTION_ID\n\
18050202aabb1111|error unexpected end in NEW_CONNECTION_ID\n\
18050202aabb111111|error unexpected end in NEW_CONNECTION_ID\n\
18050202aabb11111111|error unexpected end in NEW_CONNECTION_ID\n\
18050202aabb1111111111|error unexpected end in NEW_CONNECTION_ID\n\
18050202aabb111111111111|error unexpected end in NEW_CONNECTION_ID\n\
18050202aabb11111111111111|error unexpected end in NEW_CONNECTION_ID\n\
18050202aabb1111111111111111|error unexpected end in NEW_CONNECTION_ID\n\
18050202aabb111111111111111111|error unexpected end in NEW_CONNECTION_ID\n\
18050202aabb11111111111111111111|error unexpected end in NEW_CONNECTION_ID\n\
18050202aabb1111111111111111111111|error unexpected end in NEW_CONNECTION_ID\n\
18050202aabb111111111111111111111111|error unexpected end in NEW_CONNECTION_ID\n\
18050202aabb11111111111111111111111111|error unexpected end in NEW_CONNECTION_ID\n\
18050202aabb1111111111111111111111111111|error unexpected end in NEW_CONNECTION_ID\n\
18050202aabb111111111111111111111111111111|error unexpected end in NEW_CONNECTION_ID\n\
18050202aabb11111111111111111111111111111111|0..22 NEW_CONNECTION_ID\n\
03|error unexpected end in ACK_ECN\n\
030e|error unexpected end in ACK_ECN\n\
030e2a|error unexpected end in ACK_ECN\n\
030e2a03|error unexpected end in ACK_ECN\n\
030e2a0300|error unexpected end in ACK_ECN\n\
030e2a030001|error unexpected end in ACK_ECN\n\
030e2a03000101|error unexpected end in ACK_ECN\n\
030e2a0300010103|error unexpected end in ACK_ECN\n\
030e2a030001010300|error unexpected end in ACK_ECN\n\
030e2a03000101030000|error unexpected end in ACK_ECN\n\
030e2a0300010103000002|error unexpected end in ACK_ECN\n\
030e2a03000101030000022a|error unexpected end in ACK_ECN\n\
030e2a03000101030000022a18|error unexpected end in ACK_ECN\n\
030e2a03000101030000022a180c|0..14 ACK\n\
0300|error unexpected end in ACK_ECN\n\
030000|error unexpected end in ACK_ECN\n\
03000000|error unexpected end in ACK_ECN\n\
0300000000|error unexpected end in ACK_ECN\n\
0200|error unexpected end in ACK\n\
020000|error unexpected end in ACK\n\
020000ff|error unexpected end in ACK\n\
020000ffff|error unexpected end in ACK\n\
020000ffffff|error unexpected end in ACK\n\
020000ffffffff|error unexpected end in ACK\n\
020000ffffffffff|error unexpected end in ACK\n\
020000ffffffffffff|error unexpected end in ACK\n\
020000ffffffffffffff|error unexpected end in ACK\n\
020000ffffffffffffffff|error unexpected end in ACK\n\
020000ffffffffffffffff00|error unexpected end in ACK\n\
020000ffffffffffffffff0000|error malformed in ACK\n\
0205|error unexpected end in ACK\n\
020500|error unexpected end in ACK\n\
02050001|error unexpected end in ACK\n\
0205000102|error unexpected end in ACK\n\
020500010202|error malformed in ACK\n\
020500010201|error unexpected end in ACK\n\
0203|error unexpected end in ACK\n\
020300|error unexpected end in ACK\n\
02030000|error unexpected end in ACK\n\
0203000004|error malformed in ACK\n\
1801|error unexpected end in NEW_CONNECTION_ID\n\
180102|error malformed in NEW_CONNECTION_ID\n\
18050200|error malformed in NEW_CONNECTION_ID\n\
18050215|error malformed in NEW_CONNECTION_ID\n\
1c|error unexpected end in CONNECTION_CLOSE\n\
1c0a|error unexpected end in CONNECTION_CLOSE\n\
1c0a00|error unexpected end in CONNECTION_CLOSE\n\
1c0a0003|error unexpected end in CONNECTION_CLOSE\n\
1c0a000362|error unexpected end in CONNECTION_CLOSE\n\
1c0a00036261|error unexpected end in CONNECTION_CLOSE\n\
1c0a0003626164|0..7 CONNECTION_CLOSE\n\
1d|error unexpected end in APPLICATION_CLOSE\n\
1d00|error unexpected end in APPLICATION_CLOSE\n\
1d0004|error unexpected end in APPLICATION_CLOSE\n\
1d000461|error unexpected end in APPLICATION_CLOSE\n\
1d00046162|error unexpected end in APPLICATION_CLOSE\n\
1d0004616263|error unexpected end in APPLICATION_CLOSE\n\
1d000461626364|0..7 APPLICATION_CLOSE\n\
1d80|error unexpected end in APPLICATION_CLOSE\n\
1d8000|error unexpected end in APPLICATION_CLOSE\n\
1d800040|error unexpected end in APPLICATION_CLOSE\n\
1d80004000|error unexpected end in APPLICATION_CLOSE\n\
1d8000400002|error unexpected end in APPLICATION_CLOSE\n\
1d800040000261|error unexpected end in APPLICATION_CLOSE\n\
1d80004000026162|0..8 APPLICATION_CLOSE\n";
