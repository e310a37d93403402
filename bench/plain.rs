//! The same job by hand, with nothing proved: a meta read into owned values, and written, and a frame round it.

/// Bytes that print as the proved library's do.
#[derive(Debug, Clone, Default, PartialEq)]
pub struct Bytes {
    pub items: Vec<u8>,
}

#[derive(Debug, Clone, Default, PartialEq)]
pub struct RequestMeta {
    pub service: Bytes,
    pub method: Bytes,
    pub log_id: Option<i64>,
}

#[derive(Debug, Clone, Default, PartialEq)]
pub struct ResponseMeta {
    pub code: Option<i32>,
    pub text: Option<Bytes>,
}

#[derive(Debug, Clone, Default, PartialEq)]
pub struct Meta {
    pub request: Option<RequestMeta>,
    pub response: Option<ResponseMeta>,
    pub compress: Option<i32>,
    pub correlation: Option<i64>,
    pub attachment: Option<i32>,
}

pub fn bytes(items: &[u8]) -> Bytes {
    Bytes { items: items.to_vec() }
}

// ---- reading

fn read_varint(from: &mut &[u8]) -> Option<u64> {
    let mut number = 0u64;
    for group in 0..10 {
        let (&byte, rest) = from.split_first()?;
        *from = rest;
        number |= ((byte & 127) as u64).wrapping_shl(7 * group);
        if byte < 128 {
            return Some(number);
        }
    }
    None
}

fn take<'a>(from: &mut &'a [u8], len: u64) -> Option<&'a [u8]> {
    if len > from.len() as u64 {
        return None;
    }
    let (piece, rest) = from.split_at(len as usize);
    *from = rest;
    Some(piece)
}

enum Value<'a> {
    Number(u64),
    Text(&'a [u8]),
    Fixed,
}

fn read_field<'a>(from: &mut &'a [u8]) -> Option<(u64, Value<'a>)> {
    let key = read_varint(from)?;
    let number = key >> 3;
    if number == 0 || number > 536_870_911 {
        return None;
    }
    let value = match key & 7 {
        0 => Value::Number(read_varint(from)?),
        1 => {
            take(from, 8)?;
            Value::Fixed
        }
        2 => {
            let len = read_varint(from)?;
            Value::Text(take(from, len)?)
        }
        5 => {
            take(from, 4)?;
            Value::Fixed
        }
        _ => return None,
    };
    Some((number, value))
}

fn read_name(text: &[u8]) -> Option<Bytes> {
    std::str::from_utf8(text).ok()?;
    Some(bytes(text))
}

fn read_request(mut from: &[u8], request: &mut RequestMeta) -> Option<()> {
    while !from.is_empty() {
        match read_field(&mut from)? {
            (1, Value::Text(text)) => request.service = read_name(text)?,
            (2, Value::Text(text)) => request.method = read_name(text)?,
            (3, Value::Number(bits)) => request.log_id = Some(bits as i64),
            _ => {}
        }
    }
    Some(())
}

fn read_response(mut from: &[u8], response: &mut ResponseMeta) -> Option<()> {
    while !from.is_empty() {
        match read_field(&mut from)? {
            (1, Value::Number(bits)) => response.code = Some(bits as i32),
            (2, Value::Text(text)) => response.text = Some(bytes(text)),
            _ => {}
        }
    }
    Some(())
}

pub fn read_meta(mut from: &[u8]) -> Option<Meta> {
    let mut meta = Meta::default();
    while !from.is_empty() {
        match read_field(&mut from)? {
            (1, Value::Text(text)) => read_request(text, meta.request.get_or_insert_default())?,
            (2, Value::Text(text)) => read_response(text, meta.response.get_or_insert_default())?,
            (3, Value::Number(bits)) => meta.compress = Some(bits as i32),
            (4, Value::Number(bits)) => meta.correlation = Some(bits as i64),
            (5, Value::Number(bits)) => {
                let size = bits as i32;
                if size < 0 {
                    return None;
                }
                meta.attachment = Some(size);
            }
            _ => {}
        }
    }
    Some(meta)
}

// ---- writing

fn put_varint(to: &mut Vec<u8>, mut number: u64) {
    while number >= 128 {
        to.push(number as u8 | 128);
        number >>= 7;
    }
    to.push(number as u8);
}

fn put_number(to: &mut Vec<u8>, field: u64, number: Option<i64>) {
    if let Some(number) = number {
        put_varint(to, field << 3);
        put_varint(to, number as u64);
    }
}

fn put_text(to: &mut Vec<u8>, field: u64, text: &[u8]) {
    put_varint(to, field << 3 | 2);
    put_varint(to, text.len() as u64);
    to.extend_from_slice(text);
}

fn spell_request(request: &RequestMeta) -> Vec<u8> {
    let mut to = Vec::new();
    put_text(&mut to, 1, &request.service.items);
    put_text(&mut to, 2, &request.method.items);
    put_number(&mut to, 3, request.log_id);
    to
}

fn spell_response(response: &ResponseMeta) -> Vec<u8> {
    let mut to = Vec::new();
    put_number(&mut to, 1, response.code.map(i64::from));
    if let Some(text) = &response.text {
        put_text(&mut to, 2, &text.items);
    }
    to
}

pub fn write_meta(meta: &Meta, to: &mut Vec<u8>) {
    if let Some(request) = &meta.request {
        put_text(to, 1, &spell_request(request));
    }
    if let Some(response) = &meta.response {
        put_text(to, 2, &spell_response(response));
    }
    put_number(to, 3, meta.compress.map(i64::from));
    put_number(to, 4, meta.correlation);
    put_number(to, 5, meta.attachment.map(i64::from));
}

// ---- frames

pub fn write_frame(meta: &Meta, payload: &[u8], to: &mut Vec<u8>) {
    let mut spelled = Vec::new();
    write_meta(meta, &mut spelled);
    to.extend_from_slice(b"PRPC");
    to.extend_from_slice(&((spelled.len() + payload.len()) as u32).to_be_bytes());
    to.extend_from_slice(&(spelled.len() as u32).to_be_bytes());
    to.extend_from_slice(&spelled);
    to.extend_from_slice(payload);
}
