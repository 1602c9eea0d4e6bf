//! Prints the formats as data.

fn main() -> impl std::process::Termination {
    checks::formats::main()
}
