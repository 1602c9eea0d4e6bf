//! The program `quic_example`, erased.

fn main() -> impl std::process::Termination {
    checks::programs::quic_example::main()
}
