//! Whether standard output is closed. Before `main`, Rust opens `/dev/null` in place of a closed standard stream, so
//! this is checked earlier, where the platform allows it.
use std::sync::atomic::{AtomicBool, Ordering};

static IS_CLOSED: AtomicBool = AtomicBool::new(false);

/// Whether the program was started without a standard output. Only on Linux; elsewhere it is always false.
pub fn is_closed() -> bool {
    IS_CLOSED.load(Ordering::Relaxed)
}

// Functions in this section run before Rust's runtime starts. This one asks the system for another descriptor of the
// same file, and needs nothing that starts later.
// SAFETY: the section has pointers to functions of this type.
#[cfg(target_os = "linux")]
#[used]
#[unsafe(link_section = ".init_array")]
static LOOK: extern "C" fn() = look;

#[cfg(target_os = "linux")]
extern "C" fn look() {
    use std::os::fd::AsFd;
    IS_CLOSED.store(std::io::stdout().as_fd().try_clone_to_owned().is_err(), Ordering::Relaxed);
}
