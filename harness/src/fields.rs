//! Bytes cut into fields, as far as they can be taken for fields.

use std::ops::Range;

/// A field's tag and length bytes.
pub const HEAD: usize = 3;

/// The fields from the front, heads included. Bytes after the last one are no field.
pub fn fields(bytes: &[u8]) -> Vec<Range<usize>> {
    let mut fields = Vec::new();
    let mut at = 0;
    while let Some(&[_, high, low]) = bytes.get(at..at + HEAD) {
        let end = at + HEAD + usize::from(u16::from_be_bytes([high, low]));
        if end > bytes.len() {
            break;
        }
        fields.push(at..end);
        at = end;
    }
    fields
}

/// The part of a field after its head.
pub fn value(field: &Range<usize>) -> Range<usize> {
    field.start + HEAD..field.end
}

/// The customers' groups, each from its `C` to the next `C` or `Z`, or to the last field's end.
pub fn groups(bytes: &[u8]) -> Vec<Range<usize>> {
    let fields = fields(bytes);
    let mut bounds: Vec<usize> = (fields.iter().map(|field| field.start))
        .filter(|&start| matches!(bytes[start], b'C' | b'Z'))
        .collect();
    bounds.extend(fields.last().map(|field| field.end));
    let pairs = bounds.windows(2).filter(|pair| bytes[pair[0]] == b'C');
    pairs.map(|pair| pair[0]..pair[1]).collect()
}

/// The seats, each from its `I` to the end of the three fields after it, as far as they are there.
pub fn seats(bytes: &[u8]) -> Vec<Range<usize>> {
    let fields = fields(bytes);
    let starts = (0..fields.len()).filter(|&at| bytes[fields[at].start] == b'I');
    let last = |at: usize| fields.get(at + 3).or(fields.last());
    starts
        .filter_map(|at| Some(fields[at].start..last(at)?.end))
        .collect()
}
