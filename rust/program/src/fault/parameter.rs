//! Transport parameters: RFC 9000, sections 7.4 and 18.
use super::closed;
use crate::formats::{PARAMETERS, Parameter};
use crate::output::{Field, Value};
use quic_wire::fields;
use quic_wire::transport_error::Code;
use quic_wire::transport_parameters::{self, ReadOptions, Refusal};
use quic_wire::{Side, varint};

const REPEATED: &str = "RFC 9000, section 7.4";
const CUT_OFF: &str = "RFC 9000, section 18";

// How many bytes of a value are printed.
const MOST: usize = 64;

fn known(id: u64) -> Option<&'static Parameter> {
    PARAMETERS.iter().find(|known| known.id == id)
}

/// Where the parameter is for which a list is rejected, and what is known about it.
pub fn of_parameters(
    list: &[u8],
    side: Side,
    options: ReadOptions,
    refusal: Refusal,
) -> (Option<usize>, Vec<Field<'static>>) {
    let at = refusal.offset;
    let fields = match *fields::of_entry(&list[at..]).spans() {
        [id, value] => match known(id.number) {
            Some(known) => {
                let end = at + value.end;
                of_entry(&list[..at], &list[end - value.number as usize..end], side, options, known)
            }
            None => closed(Code::TRANSPORT_PARAMETER_ERROR, REPEATED).to_vec(),
        },
        _ => of_cut_off(refusal.id),
    };
    (Some(at), fields)
}

fn of_cut_off(id: Option<u64>) -> Vec<Field<'static>> {
    let mut fields = Vec::new();
    fields.extend(id.and_then(known).map(|known| ("parameter", Value::Word(known.quinn_proto.into()))));
    fields.extend(id.map(|id| ("id", Value::Number(id))));
    fields.push(("why", Value::sentence("it is cut off")));
    fields.extend(closed(Code::TRANSPORT_PARAMETER_ERROR, CUT_OFF));
    fields
}

// Of an entry with this value, and with these entries before it.
fn of_entry(before: &[u8], value: &[u8], side: Side, options: ReadOptions, known: &Parameter) -> Vec<Field<'static>> {
    // quinn-proto accepts two parameters more than once.
    let is_repeated = (options.no_repeats || !known.may_repeat)
        && transport_parameters::entries(before).flatten().any(|other| other.id == known.id);
    let is_long = matches!(varint::read(value), Some((number, len))
        if len == value.len() && varint::len(number) != Some(len));
    let mut fields = vec![
        ("parameter", Value::Word(known.quinn_proto.into())),
        ("id", Value::Number(known.id)),
        ("value", Value::few(&value[..value.len().min(MOST)])),
    ];
    let mut section = known.section;
    let why = if is_repeated {
        section = REPEATED;
        "it occurs twice"
    } else if side == Side::Server && known.is_servers {
        "a client must not send it"
    } else if is_long && !options.any_width && known.is_shortest {
        "its integer isn't in its shortest encoding, which RFC 9000, section 16, allows and quinn-proto rejects"
    } else {
        fields.push(("wanted", Value::sentence(known.wanted)));
        "its value is invalid"
    };
    fields.push(("why", Value::sentence(why)));
    fields.extend(closed(Code::TRANSPORT_PARAMETER_ERROR, section));
    fields
}

#[cfg(test)]
mod tests {
    use super::*;

    #[test]
    fn the_table_has_the_parameters_that_the_library_knows() {
        for id in (0..0x1_0000).chain(PARAMETERS.iter().map(|known| known.id)) {
            let is_known = transport_parameters::known(id).is_some();
            assert_eq!(known(id).is_some(), is_known, "{id:#x}");
        }
    }
}
