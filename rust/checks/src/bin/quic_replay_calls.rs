//! The program `quic_replay_calls`, erased.

fn main() -> impl std::process::Termination {
    checks::programs::quic_replay_calls::main()
}
