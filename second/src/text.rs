//! The text of the program's input: cut into records, and those into fields.

/// What makes the program write `bad,` and the record's number.
#[derive(Clone, Copy, Debug, PartialEq, Eq)]
pub struct Bad;

/// "Records end in CRLF, which the last may lack."
pub fn records(text: &[u8]) -> Vec<&[u8]> {
    let mut records = Vec::new();
    let mut rest = text;
    while !rest.is_empty() {
        let (record, after) = cut_at_line_end(rest);
        records.push(record);
        rest = after;
    }
    records
}

/// The text before its first CRLF, and the text after it.
fn cut_at_line_end(text: &[u8]) -> (&[u8], &[u8]) {
    match text.windows(2).position(|pair| pair == b"\r\n") {
        Some(end) => (&text[..end], &text[end + 2..]),
        None => (text, b""),
    }
}

/// The record's fields, each without the quotes around it.
pub fn fields(record: &[u8]) -> Result<Vec<&[u8]>, Bad> {
    if is_empty_record(record) || has_stray_line_end(record) {
        return Err(Bad);
    }
    record.split(|&byte| byte == b',').map(unquoted).collect()
}

/// "an empty record"
fn is_empty_record(record: &[u8]) -> bool {
    record.is_empty()
}

/// "a CR or LF outside a CRLF"
fn has_stray_line_end(record: &[u8]) -> bool {
    record.contains(&b'\r') || record.contains(&b'\n')
}

/// "a whole field may be quoted, but only what could stand there unquoted may
/// stand between the quotes"
fn unquoted(field: &[u8]) -> Result<&[u8], Bad> {
    let bare = match field.strip_prefix(b"\"") {
        Some(opened) => opened.strip_suffix(b"\"").ok_or(Bad)?,
        None => field,
    };
    could_stand_unquoted(bare).then_some(bare).ok_or(Bad)
}

/// "no comma, quote, CR or LF"
fn could_stand_unquoted(bytes: &[u8]) -> bool {
    !bytes.iter().any(|byte| b",\"\r\n".contains(byte))
}

/// "Numbers are decimal, 0 to 65,535, with no leading zero"
pub fn number(field: &[u8]) -> Result<u16, Bad> {
    if !is_decimal(field) || has_leading_zero(field) {
        return Err(Bad);
    }
    value(field)
}

/// "decimal"
fn is_decimal(field: &[u8]) -> bool {
    !field.is_empty() && field.iter().all(u8::is_ascii_digit)
}

/// "with no leading zero"
fn has_leading_zero(field: &[u8]) -> bool {
    field.len() > 1 && field[0] == b'0'
}

/// "0 to 65,535"
fn value(digits: &[u8]) -> Result<u16, Bad> {
    let digits = std::str::from_utf8(digits).map_err(|_| Bad)?;
    digits.parse().map_err(|_| Bad)
}
