//! The order of bytes in the groups of `xxd`, from the text next to them.

/// The order of the bytes in a group. Of two lines the greater value decides.
#[derive(Clone, Copy, Debug, PartialEq, Eq, PartialOrd, Ord)]
pub enum Order {
    /// The text says nothing, and it isn't needed.
    Untold,
    /// It doesn't say, and the groups are as wide as those of `xxd -e`.
    Unknown,
    AsDumped,
    /// As `xxd -e` prints them.
    Swapped,
}

/// Whether the last group has fewer digits than the first, or than 4, 8 or 16, and is right-aligned, as `xxd -e` prints
/// it.
pub fn is_right_aligned(aligned: &[u8]) -> bool {
    let is_hex = |digits: &[u8]| digits.iter().all(u8::is_ascii_hexdigit);
    let rest = aligned.trim_ascii_start();
    let width = rest.iter().position(|byte| *byte == b' ').unwrap_or(rest.len());
    let blanks = aligned.len() - rest.len();
    if blanks > 0 {
        return matches!(blanks + width, 4 | 8 | 16);
    }
    let mut columns = (0..).map_while(|i| rest.get(i * (width + 1)..)?.split_at_checked(width));
    let Some((last, behind)) = columns.find(|(column, _)| !is_hex(column)) else { return false };
    let digits = last.trim_ascii_start();
    let ends = behind.is_empty() || behind.starts_with(b"  ");
    matches!(width, 4 | 8 | 16) && !digits.is_empty() && is_hex(digits) && ends
}

/// From the text next to groups, which has a character for each byte.
pub fn of(groups: &[u8], bytes: &[u8], shown: &[u8]) -> Order {
    let width = groups.split(|byte| *byte == b' ').next().map_or(0, |group| group.len() / 2);
    let shown = &shown[shown.len().saturating_sub(bytes.len())..];
    if !matches!(width, 2 | 4 | 8) || shown.len() != bytes.len() {
        return Order::Untold;
    }
    let fits = |(byte, c): (&u8, &u8)| match byte {
        b'!'..=b'~' => c == byte,
        _ => *c == b'.' || (*byte == b' ' && *c == b' '),
    };
    let swapped = || bytes.chunks(width).flat_map(|group| group.iter().rev());
    let is_same = swapped().eq(bytes);
    match (bytes.iter().zip(shown).all(fits), swapped().zip(shown).all(fits)) {
        (false, true) => Order::Swapped,
        (true, false) => Order::AsDumped,
        (true, true) if width > 2 && !is_same => Order::Unknown,
        _ => Order::Untold,
    }
}
