//! The program `quic_replay_packets`, erased.

fn main() -> impl std::process::Termination {
    checks::programs::quic_replay_packets::main()
}
