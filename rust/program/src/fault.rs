//! The field at which reading failed, and what an endpoint does then.
mod frame;
mod packet;
mod parameter;

use crate::formats;
use crate::output::{Field, Value};
#[cfg(feature = "capture")]
pub use frame::broken_rule;
pub use frame::{of_empty_payload, of_frame};
pub use packet::{FIXED_BIT, of_header};
pub use parameter::of_parameters;
use quic_wire::fields::Fields;
use quic_wire::transport_error::Code;

/// A field that is cut off or has an invalid value.
#[derive(Clone, Copy, Debug, PartialEq)]
pub struct Place {
    /// Its name in the RFC.
    pub field: &'static str,
    /// Where it begins.
    pub at: usize,
}

impl Place {
    // The number or the bytes at fault, given the names of the fields in the row.
    fn of(row: &[formats::Field], fields: &Fields) -> Option<Place> {
        let fault = fields.fault()?;
        let field = row.get(fault.field)?;
        // A rule has the name of the field that it limits.
        if let Some(limited) = fields.spans().iter().find(|span| row[span.field].name == field.name) {
            return Some(Place { field: field.name, at: limited.start });
        }
        let index = usize::try_from(fault.numbers).ok()?;
        let name = match field.numbers {
            names if index < names.len() => names[index],
            // Of the ranges of an ACK, gaps and lengths take turns.
            &[_, _, gap, length] => [gap, length][index % 2],
            _ => field.name,
        };
        Some(Place { field: name, at: fault.start + fault.inside })
    }

    // The field with its offset in all of the bytes, given what precedes them.
    fn fields(self, front: usize) -> [Field<'static>; 2] {
        [("field", Value::Text(self.field.as_bytes())), ("field_at", Value::Number((front + self.at) as u64))]
    }
}

/// The name that RFC 9000 gives a code, if it does.
pub fn code_name(code: Code) -> String {
    let (name, number) = (format!("{code:?}"), u64::from(code));
    match number {
        _ if !name.starts_with("Code") => name,
        0x100..=0x1ff => format!("CRYPTO_ERROR {}", number - 0x100),
        _ => format!("<unknown {number:x}>"),
    }
}

// The code to close with, and the section that says so.
fn closed(code: Code, section: &'static str) -> [Field<'static>; 3] {
    [
        ("close_code", Value::Number(code.into())),
        ("close_name", Value::Word(code_name(code).into())),
        ("section", Value::sentence(section)),
    ]
}
