//! Metas through `protoc`, both ways: what it encodes is read as the meta that was meant, and what is written it decodes
//! as that meta.

use crate::plain::{Meta, RequestMeta, ResponseMeta, bytes};
use crate::wire;
use std::io::Write;
use std::process::{Command, Stdio};

/// Numbers that look random and are the same in each run.
struct Dice(u64);

impl Dice {
    fn next(&mut self) -> u64 {
        self.0 ^= self.0 << 13;
        self.0 ^= self.0 >> 7;
        self.0 ^= self.0 << 17;
        self.0
    }

    fn below(&mut self, count: u64) -> u64 {
        self.next() % count
    }

    fn maybe<T>(&mut self, make: impl FnOnce(&mut Dice) -> T) -> Option<T> {
        if self.below(3) > 0 { Some(make(self)) } else { None }
    }

    /// A number of any size, either sign.
    fn number(&mut self) -> i64 {
        let size = self.below(64);
        (self.next() >> size) as i64
    }

    fn small(&mut self) -> i32 {
        self.number() as i32
    }

    fn name(&mut self) -> Vec<u8> {
        let words = ["", "Echo", "rpc.Echo", "größe", "名前", "a b\"c\\d", "x\ny"];
        let word = words[self.below(words.len() as u64) as usize];
        word.repeat(1 + self.below(40) as usize).into_bytes()
    }

    fn raw(&mut self) -> Vec<u8> {
        (0..self.below(300)).map(|_| self.next() as u8).collect()
    }

    fn meta(&mut self) -> Meta {
        Meta {
            request: self.maybe(|dice| RequestMeta {
                service: bytes(&dice.name()),
                method: bytes(&dice.name()),
                log_id: dice.maybe(Dice::number),
            }),
            response: self.maybe(|dice| ResponseMeta {
                code: dice.maybe(Dice::small),
                text: dice.maybe(|dice| bytes(&dice.raw())),
            }),
            compress: self.maybe(Dice::small),
            correlation: self.maybe(Dice::number),
            attachment: self.maybe(|dice| dice.small() & i32::MAX),
        }
    }
}

/// Bytes in quotes, each as three octal digits.
fn quoted(items: &[u8]) -> String {
    let digits: String = items.iter().map(|byte| format!("\\{byte:03o}")).collect();
    format!("\"{digits}\"")
}

fn field<T: ToString>(name: &str, value: &Option<T>) -> String {
    value
        .as_ref()
        .map_or(String::new(), |value| format!("{name}: {}\n", value.to_string()))
}

fn request_text(request: &RequestMeta) -> String {
    format!(
        "request {{\nservice: {}\nmethod: {}\n{}}}\n",
        quoted(&request.service.items),
        quoted(&request.method.items),
        field("log_id", &request.log_id)
    )
}

fn response_text(response: &ResponseMeta) -> String {
    let text = response.text.as_ref().map(|text| quoted(&text.items));
    format!(
        "response {{\n{}{}}}\n",
        field("code", &response.code),
        field("text", &text)
    )
}

/// The meta in the text format of Protocol Buffers.
fn meta_text(meta: &Meta) -> String {
    [
        meta.request.as_ref().map_or(String::new(), request_text),
        meta.response.as_ref().map_or(String::new(), response_text),
        field("compress", &meta.compress),
        field("correlation", &meta.correlation),
        field("attachment", &meta.attachment),
    ]
    .concat()
}

fn protoc(schema: &str, way: &str, input: &[u8]) -> Vec<u8> {
    let (folder, file) = schema.rsplit_once('/').unwrap_or((".", schema));
    let mut child = Command::new("protoc")
        .args([&format!("--proto_path={folder}"), &format!("--{way}=Meta"), file])
        .stdin(Stdio::piped())
        .stdout(Stdio::piped())
        .spawn()
        .expect("protoc starts");
    child
        .stdin
        .take()
        .expect("a pipe")
        .write_all(input)
        .expect("protoc reads");
    child.wait_with_output().expect("protoc ends").stdout
}

/// One meta both ways. `protoc` encodes its text and decodes what was written; as it spells text in its own way, it
/// encodes that again.
fn agrees(schema: &str, meta: &Meta) -> bool {
    let encoded = protoc(schema, "encode", meta_text(meta).as_bytes());
    let spelled = wire::meta_respelled(&encoded);
    let decoded = protoc(schema, "decode", &spelled);
    let again = protoc(schema, "encode", &decoded);
    // The empty meta has no bytes, and so nothing can be told of it by them.
    wire::meta_shown(&encoded) == format!("{meta:?}") && spelled == encoded && again == encoded
}

/// Compares so many metas and tells how many passed; whether all did.
pub fn compare(schema: &str, count: u32) -> bool {
    let mut dice = Dice(0x2545_f491_4f6c_dd1d);
    let mut failed = 0;
    for _ in 0..count {
        let meta = dice.meta();
        if !agrees(schema, &meta) {
            failed += 1;
            println!("protoc: differs at {meta:?}");
        }
    }
    println!("protoc: {} passed, {failed} failed", count - failed);
    failed == 0 && count > 0
}
