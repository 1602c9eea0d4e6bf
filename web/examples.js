// Inputs to try the page with.

import { RFC_9001 } from "./packets.js";

export const EXAMPLES = [
  {
    name: "a payload",
    mode: "frames",
    // A length in more bytes than it needs, as RFC 9000 allows.
    text: "024064190203010a05020e0444b0400c68656c6c6f2c20776f726c6411048001000018020108c1d2e3f405162738"
      + "a0a1a2a3a4a5a6a7a8a9aaabacadaeaf01000000000000",
  },
  {
    name: "a payload with an error",
    mode: "frames",
    text: "024064190203010a05020e0444b02068656c6c6f",
  },
  {
    name: "a datagram of three packets",
    mode: "datagram",
    idLength: 8,
    text: "c300000001088394c8f03e51570808f067a5502a4262b5040badcafe4029b0ab104bddec58e8b8ffdb24215c2769"
      + "64a0d0e6b6bb1da8bb47ed511e2defee77903ec051739ba218e700000001088394c8f03e51570808f067a5502a42"
      + "62b54024bc5dc73ac163efe73c76bf29988565f59dc9ebd35580f9efb19715b26fb6872101c5b0a05a8394c8f03e"
      + "5157080d8bf54958790db6de545df78d9218cf0df8b83460ccf760bf19f5",
  },
  {
    name: "a client’s Initial",
    mode: "datagram",
    // A datagram of one packet, which the page opens.
    text: RFC_9001.A2,
  },
  {
    name: "a server’s Initial",
    mode: "datagram",
    // With the id that the client chose.
    text: RFC_9001.A3,
    firstId: "8394c8f03e515708",
  },
  {
    name: "a Retry",
    mode: "datagram",
    // RFC 9001, appendix A.4.
    text: "ff000000010008f067a5502a4262b5746f6b656e04a265ba2eff4d829058fb3f0f2496ba",
  },
  {
    name: "a packet to open",
    mode: "datagram",
    idLength: 0,
    // RFC 9001, appendix A.5: a short header by ChaCha20, the mask of its header, its payload.
    text: "4cfe4189655e5cd55c41f69080575d7999c25a5bfb",
    opened: { 0: { mask: "aefefe7d03", plain: "01" } },
  },
  {
    name: "a log",
    mode: "frames",
    text: "10:00:00.031 sent 1-RTT number=7 payload=024064190203010a0502\n"
      + "10:00:00.054 received 1-RTT number=4 payload=0a040c68656c6c6f2c20776f726c64\n"
      + "10:00:00.054 the stream is read\n"
      + "10:00:00.071 sent 1-RTT number=8 payload=1104800100001a0102030405060708\n"
      + "10:00:00.090 received 1-RTT number=5 payload=1c0a000862616420627965",
  },
  {
    name: "a server’s transport parameters",
    mode: "params",
    text: "00088394c8f03e515708010480007530030245c00404800c00000504800400000604800400000704800400000802"
      + "4064090240640a01030b01190e01040f08f067a5502a4262b520048001000040ff04deadbeef",
  },
];
