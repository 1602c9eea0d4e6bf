//! The driver that is put into quinn-proto.
fn main() -> std::io::Result<()> {
    quinn_proto::driver::main()
}
