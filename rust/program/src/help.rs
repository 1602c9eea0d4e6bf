//! What `--help` prints.

pub const USAGE: &str = "usage: quic-wire frames|canon|datagram|params|number|ranges|capture|check [OPTION..] [FILE..]";

pub const HELP: &str = "\
Decode QUIC v1 and v2 frames, packets and transport parameters, and print every field.

usage: quic-wire MODE [OPTION..] [FILE..]

MODE says what a line is:
  frames      an unprotected packet payload: print its frames
  canon       the same: print the shortest payload with the same frames in the same order
  datagram    a datagram as it is sent: print its packets, as far as their headers are readable
  params      a list of transport parameters
  number      varints or, with --largest, a truncated packet number
  ranges      packet numbers in decimal, such as 1-3 7 9: print the set of them, and an ACK of it
or what a FILE is:
  capture     a capture file, pcap or pcapng: print its QUIC packets, and the frames of those that there are keys for
              (`quic-wire capture --help` has its options)
  check       the same: print which of its packets break a rule of RFC 9000 (`quic-wire check --help`)

Output:
  1: 0..2 PADDING count=1    line 1, bytes 0 and 1: the frame and its fields
  ranges=9-10,7-7            packet numbers: each range with both its ends
  order=4,17                 the ids of all parameters of a list, in its order
  error at 3: ..             the byte at which what is rejected begins. field_at is where the field at fault begins,
                             close_code the code to close the connection with, section the RFC's section
If what is rejected is a datagram in another mode, or a payload in the mode datagram, a hint on standard error says so,
once for each FILE.

Without FILE, and for -, read standard input. A line is hexadecimal, which may contain spaces, tabs, commas, colons,
quotes, 0x and \\x, or base64 (--base64). Lists as in C, Rust, Python and JSON may have several lines; b'..' is read as
Python and Rust print it; comments are ignored. The lines of a dump are joined. They are recognized by the offset in
front of them:
  00000010: 0102 ..    `xxd`
  \\t0x0010:  0102 ..   `tcpdump -x`, `tcpdump -X`
  00000010  01 02 ..   `hexdump -C`
  0010  01 02 ..       Wireshark (Copy, as a Hex Dump), `tshark -x`
  000010 01 02 ..      `od -A x -t x1` or, with text, `od -A x -t x1z`
  0000020 01 02 ..     `od -t x1`: seven octal digits or, with -A d, decimal ones
`xxd -e`, and `hexdump` without -C, swap bytes and are rejected, and so is what may mean two things, such as a single
line `000000 01 06`. The manual page, INPUT, has the rule. A datagram may begin with its Ethernet, IP and UDP headers,
as captures print them.
A blank line ends a dump, as does its last offset; a row at offset 0 begins another. Each line of output begins with the
number of its line of input, and is written as soon as that input is whole.

options:
  --base64             read lines as base64
  --color WHEN         always, never or auto: on a terminal, unless NO_COLOR is set or TERM is dumb; default auto
  --json               print a JSON object per line, without colours
  --rfc                read as RFC 9000 requires, without the ACK frequency extension; the default
  --quinn              read as the Rust crate quinn-proto does. The manual page, READINGS, lists the differences
  --strict             frames, with --quinn: reject a frame type not in its shortest encoding
  --cid-len N          datagram: length of the ids of short headers in bytes, 0 to 20; default: that of the matching
                       id in an earlier long header of the same input, or else 0
  --versions LIST      datagram: versions to read, in hexadecimal, separated by commas;
                       default 1, the drafts 29 to 34, and 2 (6b3343cf)
  --grease             datagram: accept a clear fixed bit (RFC 9287)
  --side client|server params: the side that reads the list; default client, which accepts all parameters
  --largest N          number: a line is a packet number's last 1 to 4 bytes, and N the largest received so far
  -h, --help; -V, --version

Exit status: 0 all lines were read, 1 an error was printed, 2 usage error, 3 reading or writing failed, or a line
doesn't fit into memory. If a file can't be read, the others are still read.
";

pub const CAPTURE: &str = "\
Follow the QUIC v1 and v2 connections of captures, open their packets, and print every field of their frames.

usage: quic-wire capture [OPTION..] [FILE..]

FILE is a capture, pcap or pcapng, also compressed by gzip. Without FILE, and for -, read standard input. Initial
packets need no secrets. The others are opened with the secrets of key logs and of a pcapng file itself.

Output:
  12: 0.027150 10.0.0.2:443 > 10.0.0.1:4433 connection=0 server 1-RTT len=42 number=4
                             record 12 of the file, seconds since its first datagram, source and destination, the
                             connection, the sender, and the packet: its type, its length in bytes and its number
      0..4 ACK ..            a frame of it, in bytes 0 to 3 of its payload. Data are cut after 32 bytes
      error at 4: ..         what RFC 9000 rejects, from byte 4 of the payload on
      lost: ..               a packet that counts as lost from here on, and why
  not opened: ..             why a packet has no frames
  no packet: ..              what bytes after the packets of a datagram are
A connection has a summary when it is forgotten, 10 seconds or more after its end, or at the end of the file: what was
opened of each side, what wasn't and why, and how it ended. The last lines of a file have the same of the whole file.
With more than one FILE, each line of a packet or summary begins with its name. Files on the disk are read at once, on
all processors, and shown in their order.

options, of which --keylog, --connection, --number and --frame may be repeated:
  --keylog FILE        read secrets from a key log, such as the file that SSLKEYLOGFILE names, but not from standard
                       input. If a capture comes from there, lines that are added meanwhile are read too
  --connection N       show only connection N, 0 being the first of a file
  --side client|server show only what this side sent
  --number N           show only packets with this number or, for 1-3 or 1..4, those with numbers 1 to 3
  --frame NAME         show only packets with such a frame; NAME is the RFC's, such as ACK or STREAM
  --rejected           show only what isn't opened, and packets in which RFC 9000 rejects something
  --lost               show only packets from which on others count as lost (RFC 9002, section 6.1)
  --json               print a JSON object per line, without colours, with all data
  --qlog DIR           write the packets to DIR as qlog 0.3 (JSON-SEQ), a file for each connection, and print only the
                       summaries
  --color WHEN         always, never or auto: on a terminal, unless NO_COLOR is set or TERM is dumb; default auto
  -h, --help; -V, --version
A packet is shown if it fits all options, and one of those that are repeated.

Exit status: 0 all files were read, 2 usage error, 3 reading or writing failed, or a file is cut off. If a file can't be
read, the others are still read.
";

pub const CHECK: &str = "\
Check the QUIC v1 and v2 connections of captures, and print which packets break which rule of RFC 9000.

usage: quic-wire check [OPTION..] [FILE..]

FILE is a capture, as for quic-wire capture. Without FILE, and for -, read standard input. Most rules need packets that
only a key log opens.

Output:
  c.pcap:17: connection 0 client 1-RTT 50, byte 21 of the datagram, byte 0 of the payload, 2 times up to record 19
      MUST frame-sender: HANDSHAKE_DONE from a client; expected: one from a server (RFC 9000, section 19.20)
                             record 17 of the file, the connection, the sender, the packet with its number, and where
                             in it; then the rule, what was seen, and what was expected. What a side of a connection
                             breaks more than once is printed once
  c.pcap: path-size not checked 3 times: ..
                             how often a rule was silent, and why: a capture doesn't show everything
  c.pcap: 40 packets not opened: ..
                             why packets were not opened, whose frames no rule sees
  c.pcap: not read: ..       why a file can't be read, or not to its end
The last line of a file says what was read of it, and where its connections were captured. Files on the disk are read at
once, and shown in their order.

options, of which --keylog, --only and --allow may be repeated:
  --keylog FILE        read secrets from a key log, such as the file that SSLKEYLOGFILE names, but not from standard
                       input
  --at WHERE           the captures were taken at the client, at the server, or on the path between them: WHERE is
                       client, server or path. By default the records of each connection may say so; else it is path.
                       At its sender's host, the order of packets shows more
  --only RULE          check only this rule
  --allow RULE=REASON  print what breaks this rule with the reason, and don't count it; once for each rule
  --should             also check rules that are no MUST
  --opened PERCENT     fail, with status 1, if fewer of a file's packets were opened, or if it has none. Those without
                       protection don't count, such as a Retry
  --qlog DIR           also write the packets to DIR, as quic-wire capture --qlog does; at the end of each trace, what
                       breaks a rule in that connection
  --rules              print the rules, those of --only or all, and what each needs; read no FILE
  --json               print a JSON object per line, without colours
  --sarif              print one object of SARIF 2.1.0, for CI systems
  --color WHEN         always, never or auto: on a terminal, unless NO_COLOR is set or TERM is dumb; default auto
  -h, --help; -V, --version

Exit status: 0 nothing is found, or only what is allowed or no MUST; 1 a MUST is broken, or fewer packets were opened
than --opened says; 2 usage error, 3 reading or writing failed, or a file is cut off. If a file can't be read, the
others are still read.
";
