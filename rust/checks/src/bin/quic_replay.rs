//! The program `quic_replay`, erased.

fn main() -> impl std::process::Termination {
    checks::programs::quic_replay::main()
}
