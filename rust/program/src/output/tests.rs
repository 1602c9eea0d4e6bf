//! How lines look.
use super::*;

fn written(look: Look, write: impl Fn(&mut Output<&mut Vec<u8>>) -> io::Result<()>) -> String {
    let mut bytes = Vec::new();
    let mut output = Output::new(&mut bytes, look);
    output.set_line(7);
    write(&mut output).unwrap();
    String::from_utf8(bytes).unwrap()
}

#[test]
fn items_are_lines_and_objects() {
    let fields = [("reason", Value::Text(b"a\"\n\xff")), ("ranges", Value::Runs(vec![(1, 2), (0, 0)]))];
    let more = [("raw_type", Value::Number(28))];
    let item = |output: &mut Output<&mut Vec<u8>>| output.item(0..5, ("type", "CLOSE"), &fields, &more);
    assert_eq!(written(Look::Plain, item), "7: 0..5 CLOSE reason=\"a\\\"\\n\u{fffd}\" ranges=1-2,0-0\n");
    let object = "{\"line\":7,\"start\":0,\"end\":5,\"type\":\"CLOSE\",\"reason\":\"a\\\"\\u000a\u{fffd}\",\
                  \"ranges\":[[1,2],[0,0]],\"raw_type\":28}\n";
    assert_eq!(written(Look::Json, item), object);
    let coloured = "\x1b[2m7:\x1b[0m \x1b[33m0..5\x1b[0m \x1b[1;32mCLOSE\x1b[0m \x1b[36mreason\x1b[0m=\"a\\\"\\n\u{fffd}\" \
                    \x1b[36mranges\x1b[0m=1-2,0-0\n";
    assert_eq!(written(Look::Coloured, item), coloured);
}

#[test]
fn errors_are_remembered() {
    let mut bytes = Vec::new();
    let mut output = Output::new(&mut bytes, Look::Plain);
    assert_eq!(output.errors(), 0);
    output.set_file("list".into());
    output.error("cut off", Some(3), &[("version", Value::Version(9))]).unwrap();
    assert_eq!(output.errors(), 1);
    assert_eq!(bytes, b"list:0: error at 3: cut off version=00000009\n");
}
