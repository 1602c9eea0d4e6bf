//! Lists of transport parameters.
use crate::fault;
use crate::formats::{Kind, PARAMETERS};
use crate::output::{Field, Output, Value, unknown};
use Value::{Flag, Ids, Number, Unknown, Word};
use quic_wire::transport_parameters::{
    Error, PreferredAddress, ReadOptions, Refusal, TransportParameters, entries, known,
};
use quic_wire::{Side, varint};
use std::io::{self, Write};

pub fn show(list: &[u8], side: Side, options: ReadOptions, output: &mut Output<impl Write>) -> io::Result<()> {
    let read = match TransportParameters::read_list(side, options, list) {
        Ok(read) => read,
        Err(refusal) => {
            let (at, fields) = fault::of_parameters(list, side, options, refusal);
            return output.error(what(&refusal), at, &fields);
        }
    };
    output.fields(&all(list, &read), &[])
}

/// Why a list is rejected.
pub fn what(refusal: &Refusal) -> &'static str {
    if refusal.error == Error::IllegalValue { "illegal value" } else { "malformed" }
}

/// What is shown of a list.
pub fn all<'a>(list: &'a [u8], read: &TransportParameters) -> Vec<Field<'a>> {
    let mut fields = fields(list, read);
    if unknown(list).next().is_some() {
        fields.push(("unknown", Unknown(list)));
    }
    fields.push(("order", Ids(list)));
    fields
}

// What differs from its default.
fn fields<'a>(list: &'a [u8], read: &TransportParameters) -> Vec<Field<'a>> {
    let named: Vec<_> = entries(list).flatten().filter(|entry| known(entry.id).is_some()).collect();
    let mut fields = Vec::new();
    for known in PARAMETERS {
        // Of repeats quinn-proto keeps the last.
        let Some(entry) = named.iter().rfind(|entry| entry.id == known.id) else { continue };
        let number = varint::read(entry.value).map(|(number, _)| number);
        match known.kind {
            Kind::Number if number == known.default => {}
            Kind::Number => fields.extend(number.map(|number| (known.quinn_proto, Number(number)))),
            Kind::Flag => fields.push((known.quinn_proto, Flag(true))),
            Kind::Address => fields.extend(read.preferred_address.iter().flat_map(address)),
            _ => fields.push((known.quinn_proto, Value::bytes(entry.value))),
        }
    }
    fields
}

fn address<'a>(a: &PreferredAddress) -> Vec<Field<'a>> {
    let mut fields = Vec::new();
    fields.extend(a.address_v4.map(|address| ("preferred_address_v4", Word(address.to_string().into()))));
    fields.extend(a.address_v6.map(|address| ("preferred_address_v6", Word(address.to_string().into()))));
    fields.push(("preferred_address_cid", Value::few(&*a.connection_id)));
    fields.push(("preferred_address_token", Value::few(&a.stateless_reset_token[..])));
    fields
}
