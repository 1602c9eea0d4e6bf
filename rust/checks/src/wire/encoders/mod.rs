//! Worked rows, results of quinn-proto, and what no clause says.

mod frames_written;
mod streams_written;
mod written;

use crate::proved::quic_frames::frame::Frame;

// Whether a length of the data can be written.
pub fn is_counted(frame: &Frame<'_>) -> bool {
    match frame {
        Frame::Stream(stream) => (stream.bytes.len() as u64) < 1 << 62,
        Frame::Datagram(datagram) => (datagram.bytes.len() as u64) < 1 << 62,
        _ => true,
    }
}
