//! The types of frames as numbers.
use super::FrameType;
use crate::VarIntBoundsExceeded;

impl FrameType {
    /// The type of this number. `None` if it is 2^62 or more (RFC 9000, section 12.4).
    ///
    /// ```
    /// use quic_wire::frame::FrameType;
    /// assert_eq!((FrameType::new(0x06), FrameType::new(1 << 62)), (Some(FrameType::CRYPTO), None));
    /// ```
    pub fn new(number: u64) -> Option<FrameType> {
        if number < 1 << 62 { Some(FrameType::of(number)) } else { None }
    }

    /// Whether it is one of the types of STREAM.
    ///
    /// ```
    /// use quic_wire::frame::FrameType;
    /// assert!(FrameType::new(0x0f).unwrap().is_stream() && !FrameType::MAX_DATA.is_stream());
    /// ```
    pub fn is_stream(self) -> bool {
        self.into_inner() & !7 == 0x08
    }
}

impl From<FrameType> for u64 {
    fn from(ty: FrameType) -> u64 {
        ty.into_inner()
    }
}

/// An error exactly when the number is 2^62 or more.
impl TryFrom<u64> for FrameType {
    type Error = VarIntBoundsExceeded;

    fn try_from(number: u64) -> Result<FrameType, VarIntBoundsExceeded> {
        FrameType::new(number).ok_or(VarIntBoundsExceeded)
    }
}
