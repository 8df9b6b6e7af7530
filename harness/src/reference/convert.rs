//! 02's job 7: "A mover turns form one into form two and back": a converter of stored tables.

use super::costs;
use super::table::{self, Form};
use super::Refusal;

/// A table's file in the form wanted, to the front of `out`; gives its length. Refusals 1, each block's, 5, 6, 7, 13, 18.
/// 02: "The mover's checks are a reading's, then 13 for the blocks needed"; "Going back with an own cost above zero is 18, after all other
/// checks". A reading's own 13 is for a stream's buffer, and none is lent here.
pub fn convert(file: &[u8], wanted: Form, out: &mut [u8]) -> Result<usize, Refusal> {
    let stream = table::stream_of(file)?;
    let same = table::form(&stream) == wanted;
    // 02: "A file already in the form wanted comes out as it went in"
    let converted = if same { file.to_vec() } else { table::file_of(&in_form(&stream, wanted)) };
    if out.len() < converted.len() {
        return Err(13);
    }
    if !same && table::unary_costs(&stream).iter().any(|byte| *byte != 0) {
        return Err(18);
    }
    out[..converted.len()].copy_from_slice(&converted);
    Ok(converted.len())
}

/// A stream that was checked, in the form wanted: unary costs of zero where it had none, and none where the form has none.
pub fn in_form(stream: &[u8], wanted: Form) -> Vec<u8> {
    let (n, sizes) = table::head(stream);
    let n = n as usize;
    let mut made = Vec::new();
    if wanted == Form::Two {
        made.push(table::FORM_TWO);
    }
    made.extend_from_slice(&table::from_count(stream)[..1 + n]);
    match (table::form(stream), wanted) {
        (Form::One, Form::Two) => made.extend(vec![0; 2 * costs::values_in_table(n, &sizes)]),
        (Form::Two, Form::Two) => made.extend_from_slice(table::unary_costs(stream)),
        (_, Form::One) => {}
    }
    made.extend_from_slice(table::pair_costs(stream));
    made
}
