//! The program `quic_show`, erased.

fn main() -> impl std::process::Termination {
    checks::programs::quic_show::main()
}
