//! Every beginning of the worked lines' bytes is read.
use super::beginnings_answers::{LINES, TEXT};
use crate::host::test::Fail;
use crate::tested::quic_bench::FailAt;
use crate::tested::quic_text::{mode_of, run};

#[test]
fn every_beginning() -> Result<(), Fail> {
    let mode = mode_of(&["datagram", "0"]).ok_or("a mode")?;
    let mut source = FailAt::new(LINES.as_bytes(), usize::MAX, u64::MAX);
    let mut sink = FailAt::new(b"", usize::MAX, u64::MAX);
    let outcome = run(mode, &mut source, &mut sink);
    assert_eq!(outcome, Ok(false));
    assert_eq!(sink.output(), TEXT.as_bytes());
    Ok(())
}
