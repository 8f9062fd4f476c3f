//! What the tests share.

const ROWS: &str = include_str!("../../../crates/vad_row/src/lib.rt");

/// The fields of the port's row, in their order, as its own crate declares them.
pub fn row_fields() -> Vec<&'static str> {
    let (_, after) = ROWS.split_once("pub struct Row {").expect("the row");
    let (fields, _) = after.split_once('}').expect("the row's end");
    let named = |line: &'static str| line.trim().strip_prefix("pub ")?.strip_suffix(": u64,");
    fields.lines().filter_map(named).collect()
}
