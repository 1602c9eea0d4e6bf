//! What quinn-proto 0.11.19 prints for codes, types, closes and errors. Each is a list of lines whose parts are
//! separated by bars.

/// Codes: the number, the Debug, the Display.
pub const CODES: &str = "0|NO_ERROR|the connection is being closed abruptly in the absence of any error\n\
4|STREAM_LIMIT_ERROR|received a frame for a stream identifier that exceeded advertised the stream limit for the \
corresponding stream type\n\
9|CONNECTION_ID_LIMIT_ERROR|the number of connection IDs provided by the peer exceeds the advertised \
active_connection_id_limit\n\
14|KEY_UPDATE_ERROR|key update error\n\
1|INTERNAL_ERROR|the endpoint encountered an internal error and cannot continue with the connection\n\
2|CONNECTION_REFUSED|the server refused to accept a new connection\n\
3|FLOW_CONTROL_ERROR|received more data than permitted in advertised data limits\n\
5|STREAM_STATE_ERROR|received a frame for a stream that was not in a state that permitted that frame\n\
6|FINAL_SIZE_ERROR|received a STREAM frame or a RESET_STREAM frame containing a different final size to the one \
already established\n\
7|FRAME_ENCODING_ERROR|received a frame that was badly formatted\n\
8|TRANSPORT_PARAMETER_ERROR|received transport parameters that were badly formatted, included an invalid value, was \
absent even though it is mandatory, was present though it is forbidden, or is otherwise in error\n\
10|PROTOCOL_VIOLATION|detected an error with protocol compliance that was not covered by more specific error codes\n\
11|INVALID_TOKEN|received an invalid Retry Token in a client Initial\n\
12|APPLICATION_ERROR|the application or application protocol caused the connection to be closed during the handshake\n\
13|CRYPTO_BUFFER_EXCEEDED|received more data in CRYPTO frames than can be buffered\n\
15|AEAD_LIMIT_REACHED|the endpoint has reached the confidentiality or integrity limit for the AEAD algorithm\n\
16|NO_VIABLE_PATH|no viable network path exists\n\
19|Code(13)|unknown error\n\
24|Code(18)|unknown error\n\
28|Code(1c)|unknown error\n\
64|Code(40)|unknown error\n\
511|Code::crypto(ff)|the cryptographic handshake failed: error 255\n\
351|Code::crypto(5f)|the cryptographic handshake failed: error 95\n\
356|Code::crypto(64)|the cryptographic handshake failed: error 100\n\
361|Code::crypto(69)|the cryptographic handshake failed: error 105\n\
366|Code::crypto(6e)|the cryptographic handshake failed: error 110\n\
371|Code::crypto(73)|the cryptographic handshake failed: error 115\n\
481|Code::crypto(e1)|the cryptographic handshake failed: error 225\n\
486|Code::crypto(e6)|the cryptographic handshake failed: error 230\n\
491|Code::crypto(eb)|the cryptographic handshake failed: error 235\n\
496|Code::crypto(f0)|the cryptographic handshake failed: error 240\n\
501|Code::crypto(f5)|the cryptographic handshake failed: error 245\n";

/// Types of frames: the number, the Debug, the Display.
pub const TYPES: &str = "2|ACK|ACK\n\
7|NEW_TOKEN|NEW_TOKEN\n\
11|Type(0b)|STREAM\n\
16|MAX_DATA|MAX_DATA\n\
21|STREAM_DATA_BLOCKED|STREAM_DATA_BLOCKED\n\
26|PATH_CHALLENGE|PATH_CHALLENGE\n\
31|IMMEDIATE_ACK|IMMEDIATE_ACK\n\
36|Type(24)|<unknown 24>\n\
40|Type(28)|<unknown 28>\n\
45|Type(2d)|<unknown 2d>\n\
50|Type(32)|<unknown 32>\n\
55|Type(37)|<unknown 37>\n\
60|Type(3c)|<unknown 3c>\n\
64|Type(40)|<unknown 40>\n\
69|Type(45)|<unknown 45>\n\
74|Type(4a)|<unknown 4a>\n\
79|Type(4f)|<unknown 4f>\n\
84|Type(54)|<unknown 54>\n\
89|Type(59)|<unknown 59>\n\
93|Type(5d)|<unknown 5d>\n\
176|Type(b0)|<unknown b0>\n\
4611686018427387903|Type(3fffffffffffffff)|<unknown 3fffffffffffffff>\n";

/// Errors: the code, the type or nothing, the text, the Display.
pub const ERRORS: &str = "0|1073741823|x|the connection is being closed abruptly in the absence of any error in <unknown 3fffffff>: x\n\
1|10||the endpoint encountered an internal error and cannot continue with the connection in STREAM\n\
2|10||the server refused to accept a new connection in STREAM\n\
4|||received a frame for a stream identifier that exceeded advertised the stream limit for the corresponding stream \
type\n\
5||some reason|received a frame for a stream that was not in a state that permitted that frame: some reason\n\
6|3|x|received a STREAM frame or a RESET_STREAM frame containing a different final size to the one already \
established in ACK_ECN: x\n\
7|10||received a frame that was badly formatted in STREAM\n\
8|10||received transport parameters that were badly formatted, included an invalid value, was absent even though it \
is mandatory, was present though it is forbidden, or is otherwise in error in STREAM\n\
10|||detected an error with protocol compliance that was not covered by more specific error codes\n\
11||some reason|received an invalid Retry Token in a client Initial: some reason\n\
12|4056676124466365948|x|the application or application protocol caused the connection to be closed during the \
handshake in <unknown 384c357127a045fc>: x\n\
13|10||received more data in CRYPTO frames than can be buffered in STREAM\n\
15|||the endpoint has reached the confidentiality or integrity limit for the AEAD algorithm\n\
16|||no viable network path exists\n\
17||some reason|unknown error: some reason\n";

/// Payloads of one close in hexadecimal, each with the Display of the close.
pub const CLOSES: &str = "1d9f331b2c0798f0c090a99f61|\u{fffd}\u{fffd}\u{fffd}\u{fffd}\u{fffd}\u{fffd}a (code 523442988)\n\
1c070006e2a99fc0fbc3|received a frame that was badly formatted: \u{2a5f}\u{fffd}\u{fffd}\u{fffd}\n\
1d47210890e280c0c3f4a090|\u{fffd}\u{fffd}\u{fffd}\u{fffd}\u{fffd}\u{fffd}\u{fffd} (code 1825)\n\
1d31069fa9c0aca998|\u{fffd}\u{fffd}\u{fffd}\u{fffd}\u{fffd}\u{fffd} (code 49)\n\
1c00000561eded9098|the connection is being closed abruptly in the absence of any error: a\u{fffd}\u{d418}\n\
1d3708e2ed9090f4ff9090|\u{fffd}\u{d410}\u{fffd}\u{fffd}\u{fffd}\u{fffd} (code 55)\n\
1c000005c3ffa98061|the connection is being closed abruptly in the absence of any error: \
\u{fffd}\u{fffd}\u{fffd}\u{fffd}a\n\
1d0008aca082acf0ed6198|\u{fffd}\u{fffd}\u{fffd}\u{fffd}\u{fffd}\u{fffd}a\u{fffd} (code 0)\n\
1c030001f4|received more data than permitted in advertised data limits: \u{fffd}\n\
1cbd8e76db000361989f|unknown error: a\u{fffd}\u{fffd}\n\
1d1108c090c3f0b5edf4f4|\u{fffd}\u{fffd}\u{fffd}\u{fffd}\u{fffd}\u{fffd}\u{fffd} (code 17)\n\
1c030006a9a0829f61c0|received more data than permitted in advertised data limits: \
\u{fffd}\u{fffd}\u{fffd}\u{fffd}a\u{fffd}\n\
1d447d0680e2a0826182|\u{fffd}\u{2802}a\u{fffd} (code 1149)\n\
1c99bddd4b000882ffed1e61c0e2a9|unknown error: \u{fffd}\u{fffd}\u{fffd}\u{1e}a\u{fffd}\u{fffd}\n\
1c070003ededed|received a frame that was badly formatted: \u{fffd}\u{fffd}\u{fffd}\n\
1d6ba703c39861|\u{d8}a (code 11175)\n\
1c0500089f29a9a0a06158c3|received a frame for a stream that was not in a state that permitted that frame: \
\u{fffd})\u{fffd}\u{fffd}\u{fffd}aX\u{fffd}\n\
1d7ffe078098a990906198|\u{fffd}\u{fffd}\u{fffd}\u{fffd}\u{fffd}a\u{fffd} (code 16382)\n\
1c0d0004ff80a0ff|received more data in CRYPTO frames than can be buffered: \u{fffd}\u{fffd}\u{fffd}\u{fffd}\n\
1d7ffe00|16382\n\
1d9bb3f93a08c39890ffed61a9e2|\u{d8}\u{fffd}\u{fffd}\u{fffd}a\u{fffd}\u{fffd} (code 464779578)\n\
1cddc1b85e8ab4103100029fff|unknown error: \u{fffd}\u{fffd}\n\
1d010861f4ac82edc06aac|a\u{fffd}\u{fffd}\u{fffd}\u{fffd}\u{fffd}j\u{fffd} (code 1)\n\
1c050001c3|received a frame for a stream that was not in a state that permitted that frame: \u{fffd}\n\
1d1103a96182|\u{fffd}a\u{fffd} (code 17)\n\
1d1205a0acc380a9|\u{fffd}\u{fffd}\u{c0}\u{fffd} (code 18)\n\
1c513c00039f9f9f|unknown error: \u{fffd}\u{fffd}\u{fffd}\n\
1d66ea04f0a909f0|\u{fffd}\u{9}\u{fffd} (code 9962)\n\
1c0c0000|the application or application protocol caused the connection to be closed during the handshake\n\
1dfffffffffffffffe05ffc39090ff|\u{fffd}\u{d0}\u{fffd}\u{fffd} (code 4611686018427387902)\n\
1d40410480e2f4c0|\u{fffd}\u{fffd}\u{fffd}\u{fffd} (code 65)\n\
1c3d0004edffe2f4|unknown error: \u{fffd}\u{fffd}\u{fffd}\u{fffd}\n\
1ddee325c8462244d300|2225664182951494867\n\
1c070006f0a93498a9c0|received a frame that was badly formatted: \u{fffd}4\u{fffd}\u{fffd}\u{fffd}\n\
1d0306aca961e298c0|\u{fffd}\u{fffd}a\u{fffd}\u{fffd} (code 3)\n\
1c06000698c3a0f4fff4|received a STREAM frame or a RESET_STREAM frame containing a different final size to the one \
already established: \u{fffd}\u{e0}\u{fffd}\u{fffd}\u{fffd}\n\
1cdcdb9dc287a7b76e0002ff9f|unknown error: \u{fffd}\u{fffd}\n\
1d040561abed06c0|a\u{fffd}\u{fffd}\u{6}\u{fffd} (code 4)\n\
1c30000880a080f0acc0c0ed|unknown error: \u{fffd}\u{fffd}\u{fffd}\u{fffd}\u{fffd}\u{fffd}\u{fffd}\n\
1d8c6b43f202aca9|\u{fffd}\u{fffd} (code 208356338)\n\
1c03000582a9ac80c3|received more data than permitted in advertised data limits: \
\u{fffd}\u{fffd}\u{fffd}\u{fffd}\u{fffd}\n\
1c6a180000|unknown error\n\
1def7c19d669f2622500|3421638225585922597\n\
1c06000682ff4790c3a9|received a STREAM frame or a RESET_STREAM frame containing a different final size to the one \
already established: \u{fffd}\u{fffd}G\u{fffd}\u{e9}\n\
1d54b10380f05a|\u{fffd}\u{fffd}Z (code 5297)\n\
1c000000|the connection is being closed abruptly in the absence of any error\n\
1d97e9dc2e0361c0ff|a\u{fffd}\u{fffd} (code 401202222)\n\
1dbafb8e5108c3f082aca975f082|\u{fffd}\u{fffd}\u{fffd}\u{fffd}\u{fffd}u\u{fffd}\u{fffd} (code 989564497)\n\
1c53830007f4989082a9ac80|unknown error: \u{fffd}\u{fffd}\u{fffd}\u{fffd}\u{fffd}\u{fffd}\u{fffd}\n\
1d6fa607a9ff98ed80ffed|\u{fffd}\u{fffd}\u{fffd}\u{fffd}\u{fffd}\u{fffd} (code 12198)\n\
1cc13259e8dc69b4b90000|unknown error\n\
1de41ff2195246d15c00|2603065300211913052\n\
1d0901a9|\u{fffd} (code 9)\n\
1c6a25000159|unknown error: Y\n\
1d3d06f298a961c380|\u{fffd}a\u{c0} (code 61)\n\
1c0e0005e29ff06180|key update error: \u{fffd}\u{fffd}a\u{fffd}\n\
1d0106edc3c0909f82|\u{fffd}\u{fffd}\u{fffd}\u{fffd}\u{fffd}\u{fffd} (code 1)\n\
1c4c12000298ff|unknown error: \u{fffd}\u{fffd}\n\
1c040003f4a9a0|received a frame for a stream identifier that exceeded advertised the stream limit for the \
corresponding stream type: \u{fffd}\u{fffd}\u{fffd}\n\
1d0100|1\n\
1c130004f9c3ff9f|unknown error: \u{fffd}\u{fffd}\u{fffd}\u{fffd}\n\
1d528e0480aca098|\u{fffd}\u{fffd}\u{fffd}\u{fffd} (code 4750)\n\
1c5976000798acaca9ff90e2|unknown error: \u{fffd}\u{fffd}\u{fffd}\u{fffd}\u{fffd}\u{fffd}\u{fffd}\n\
1c9faf8b93000895f4ffe280809fc3|unknown error: \u{fffd}\u{fffd}\u{fffd}\u{2000}\u{fffd}\u{fffd}\n\
1d1d04f09fc0ff|\u{fffd}\u{fffd}\u{fffd} (code 29)\n\
1c110004c09f90a9|unknown error: \u{fffd}\u{fffd}\u{fffd}\u{fffd}\n\
1d42e80482c0ffed|\u{fffd}\u{fffd}\u{fffd}\u{fffd} (code 744)\n\
1c0a0008e298f42e02aceda0|detected an error with protocol compliance that was not covered by more specific error \
codes: \u{fffd}\u{fffd}.\u{2}\u{fffd}\u{fffd}\u{fffd}\n\
1da678042604ed90e2f4|\u{fffd}\u{fffd}\u{fffd} (code 645399590)\n\
1d0308809082f0a0c3e298|\u{fffd}\u{fffd}\u{fffd}\u{fffd}\u{fffd}\u{fffd} (code 3)\n\
1c1100052990c09f80|unknown error: )\u{fffd}\u{fffd}\u{fffd}\u{fffd}\n\
1d742f0461c3f4ea|a\u{fffd}\u{fffd}\u{fffd} (code 13359)\n\
1c0a0003aca0ff|detected an error with protocol compliance that was not covered by more specific error codes: \
\u{fffd}\u{fffd}\u{fffd}\n\
1d040480ff0ef4|\u{fffd}\u{fffd}\u{e}\u{fffd} (code 4)\n\
1ded565083bf24c3b7069fc08280acc3|\u{fffd}\u{fffd}\u{fffd}\u{fffd}\u{fffd}\u{fffd} (code 3266887106481669047)\n\
1c130005a9c0fff09f|unknown error: \u{fffd}\u{fffd}\u{fffd}\u{fffd}\n\
1d30026180|a\u{fffd} (code 48)\n\
1c000007f0989fff78ffac|the connection is being closed abruptly in the absence of any error: \
\u{fffd}\u{fffd}x\u{fffd}\u{fffd}\n\
1d4b6b02f0ac|\u{fffd} (code 2923)\n\
1c40400000|unknown error\n\
1c7156000880ac82e2a0aced80|unknown error: \u{fffd}\u{fffd}\u{fffd}\u{282c}\u{fffd}\n\
1d4659028261|\u{fffd}a (code 1625)\n\
1c3e0008c098f08261c39fff|unknown error: \u{fffd}\u{fffd}\u{fffd}\u{fffd}a\u{df}\u{fffd}\n\
1d07069fa9f0ac82ca|\u{fffd}\u{fffd}\u{fffd}\u{fffd} (code 7)\n\
1c71ea0003c398c3|unknown error: \u{d8}\u{fffd}\n\
1c5c36000380a0ac|unknown error: \u{fffd}\u{fffd}\u{fffd}\n\
1d050690c09f9090c3|\u{fffd}\u{fffd}\u{fffd}\u{fffd}\u{fffd}\u{fffd} (code 5)\n\
1c8c79885b0003c0a082|unknown error: \u{fffd}\u{fffd}\u{fffd}\n\
1d2900|41\n\
1c7fb80000|unknown error\n\
1c020000|the server refused to accept a new connection\n\
1d68ff00|10495\n\
1c33000161|unknown error: a\n\
1dfffffffffffffffe0898f0f09098618090|\u{fffd}\u{fffd}\u{fffd}a\u{fffd}\u{fffd} (code 4611686018427387902)\n\
1c47e60004bcffe2a0|unknown error: \u{fffd}\u{fffd}\u{fffd}\n\
1d7e9206edc0edc0c398|\u{fffd}\u{fffd}\u{fffd}\u{fffd}\u{d8} (code 16018)\n\
1d74a003a09890|\u{fffd}\u{fffd}\u{fffd} (code 13472)\n\
1c0e000480c369d2|key update error: \u{fffd}\u{fffd}i\u{fffd}\n\
1d6790028282|\u{fffd}\u{fffd} (code 10128)\n\
1c020002c0a9|the server refused to accept a new connection: \u{fffd}\u{fffd}\n\
1d0501ac|\u{fffd} (code 5)\n\
1d1c08ffc0a99f87e2acc3|\u{fffd}\u{fffd}\u{fffd}\u{fffd}\u{fffd}\u{fffd}\u{fffd} (code 28)\n\
1c3e0008f480bd619082619f|unknown error: \u{fffd}a\u{fffd}\u{fffd}a\u{fffd}\n\
1d781905f4c3f4e29f|\u{fffd}\u{fffd}\u{fffd}\u{fffd} (code 14361)\n\
1c110006ace25061c390|unknown error: \u{fffd}\u{fffd}Pa\u{d0}\n\
1debcfcbe0cc5e8add089fffacf0e2eded98|\u{fffd}\u{fffd}\u{fffd}\u{fffd}\u{fffd}\u{fffd}\u{fffd} (code \
3156966030171867869)\n\
1c0b0003ace2f0|received an invalid Retry Token in a client Initial: \u{fffd}\u{fffd}\u{fffd}\n\
1c300001c8|unknown error: \u{fffd}\n\
1da3c570730598f4901af0|\u{fffd}\u{fffd}\u{fffd}\u{1a}\u{fffd} (code 600141939)\n\
1c070001c3|received a frame that was badly formatted: \u{fffd}\n\
1d40f800|248\n\
1c110002a080|unknown error: \u{fffd}\u{fffd}\n\
1c0900026990|the number of connection IDs provided by the peer exceeds the advertised active_connection_id_limit: \
i\u{fffd}\n\
1d06059ff0f0f0e2|\u{fffd}\u{fffd}\u{fffd}\u{fffd}\u{fffd} (code 6)\n\
1c0e0003a09f61|key update error: \u{fffd}\u{fffd}a\n\
1d800040000861f0e2c361e2c0ff|a\u{fffd}\u{fffd}\u{fffd}a\u{fffd}\u{fffd}\u{fffd} (code 16384)\n\
1c040007a0c39082e290ff|received a frame for a stream identifier that exceeded advertised the stream limit for the \
corresponding stream type: \u{fffd}\u{d0}\u{fffd}\u{fffd}\u{fffd}\n\
1dffffffffffffffff08f4e2acffaca99f68|\u{fffd}\u{fffd}\u{fffd}\u{fffd}\u{fffd}\u{fffd}h (code 4611686018427387903)\n\
1db177bade02acf4|\u{fffd}\u{fffd} (code 829930206)\n\
1c000004aca0abff|the connection is being closed abruptly in the absence of any error: \
\u{fffd}\u{fffd}\u{fffd}\u{fffd}\n\
1d725a0561f0ff82c3|a\u{fffd}\u{fffd}\u{fffd}\u{fffd} (code 12890)\n\
1c110006edfff4c0e298|unknown error: \u{fffd}\u{fffd}\u{fffd}\u{fffd}\u{fffd}\n\
1d2b06a0e298c3f0a9|\u{fffd}\u{fffd}\u{fffd}\u{fffd} (code 43)\n\
1d89feefd908fff061f0809835ff|\u{fffd}\u{fffd}a\u{fffd}\u{fffd}\u{fffd}5\u{fffd} (code 167702489)\n\
1c0b0003f49015|received an invalid Retry Token in a client Initial: \u{fffd}\u{fffd}\u{15}\n";
