//! JSON is well formed, and says what the report says.

mod common;

use common::{run, texts};
use genduvo_tool::args::{LIMIT, MEMORY};
use genduvo_tool::input;
use genduvo_tool::lend::{Accepted, Bounds, Outcome, analyse};

/// A value of JSON.
#[derive(Debug, Clone, PartialEq)]
enum Value {
    Null,
    Truth(bool),
    Number(u64),
    Text(String),
    List(Vec<Value>),
    Object(Vec<(String, Value)>),
}

impl Value {
    fn get(&self, name: &str) -> &Value {
        let Value::Object(parts) = self else { panic!("no object: {self:?}") };
        &parts.iter().find(|(part, _)| part == name).unwrap_or_else(|| panic!("no {name}: {self:?}")).1
    }

    fn list(&self) -> &[Value] {
        let Value::List(parts) = self else { panic!("no list: {self:?}") };
        parts
    }

    fn number(&self) -> u64 {
        let Value::Number(number) = self else { panic!("no number: {self:?}") };
        *number
    }
}

/// Reads one value off the front; what isn't JSON panics.
struct Reader<'a>(&'a str);

impl Reader<'_> {
    fn skip(&mut self) {
        self.0 = self.0.trim_start_matches([' ', '\n', '\t', '\r']);
    }

    fn sign(&mut self, sign: char) -> bool {
        self.skip();
        let rest = self.0.strip_prefix(sign);
        self.0 = rest.unwrap_or(self.0);
        rest.is_some()
    }

    fn want(&mut self, sign: char) {
        assert!(self.sign(sign), "{sign} before {:.40}", self.0);
    }

    fn value(&mut self) -> Value {
        self.skip();
        match self.0.chars().next() {
            Some('{') => Value::Object(self.parts('{', '}', |reader| {
                let Value::Text(name) = reader.text() else { unreachable!() };
                reader.want(':');
                (name, reader.value())
            })),
            Some('[') => Value::List(self.parts('[', ']', Reader::value)),
            Some('"') => self.text(),
            Some('0'..='9') => self.digits(),
            _ => self.word(),
        }
    }

    fn parts<T>(&mut self, open: char, close: char, one: impl Fn(&mut Self) -> T) -> Vec<T> {
        self.want(open);
        let mut all = Vec::new();
        if self.sign(close) {
            return all;
        }
        loop {
            all.push(one(self));
            if self.sign(close) {
                return all;
            }
            self.want(',');
        }
    }

    fn word(&mut self) -> Value {
        let words = [("null", Value::Null), ("true", Value::Truth(true)), ("false", Value::Truth(false))];
        for (word, value) in words {
            if let Some(rest) = self.0.strip_prefix(word) {
                self.0 = rest;
                return value;
            }
        }
        panic!("no value: {:.40}", self.0);
    }

    fn digits(&mut self) -> Value {
        let end = self.0.find(|sign: char| !sign.is_ascii_digit()).unwrap_or(self.0.len());
        let (digits, rest) = self.0.split_at(end);
        assert!(digits == "0" || !digits.starts_with('0'), "{digits}");
        self.0 = rest;
        Value::Number(digits.parse().expect("a number"))
    }

    fn text(&mut self) -> Value {
        self.want('"');
        let mut text = String::new();
        let mut signs = self.0.char_indices();
        while let Some((at, sign)) = signs.next() {
            assert!(sign >= ' ', "a bare control character");
            match sign {
                '"' => {
                    self.0 = &self.0[at + 1..];
                    return Value::Text(text);
                }
                '\\' => text.push(signs.next().expect("an escaped character").1),
                _ => text.push(sign),
            }
        }
        panic!("a text without end");
    }
}

fn parsed(text: &str) -> Value {
    let mut reader = Reader(text);
    let value = reader.value();
    reader.skip();
    assert_eq!(reader.0, "", "nothing behind it");
    value
}

fn analysed(file: &str) -> Option<Accepted> {
    let bytes = input::description(Some(&common::top().join(file))).ok()?;
    match analyse(&bytes, &Bounds { limit: LIMIT, memory: MEMORY }).ok()? {
        Outcome::Accepted(accepted) => Some(accepted),
        Outcome::Refused(..) => None,
    }
}

fn masks(cells: &Value) -> Vec<u64> {
    cells.list().iter().map(|cell| cell.get("mask").number()).collect()
}

fn as_reported(cells: genduvo::report::Cells) -> Vec<u64> {
    cells.iter().map(|cell| cell.mask.bits().into()).collect()
}

#[test]
fn every_answer_is_json() {
    for file in texts() {
        let ran = run(&["json", &file]);
        let value = parsed(&ran.out);
        assert_eq!(value.get("answer").get("accepted"), &Value::Truth(ran.status == 0), "{file}");
    }
}

#[test]
fn a_refusal_has_number_and_place() {
    let value = parsed(&run(&["json", "examples/worked-kind-3.bin"]).out);
    let answer = value.get("answer");
    let numbers = ["number", "chunk", "instruction", "steps"].map(|name| answer.get(name).number());
    assert_eq!(numbers, [13, 0, 2, 6]);
}

#[test]
fn records_are_those_of_the_report() {
    let mut compared = 0;
    for file in texts() {
        let Some(accepted) = analysed(&file) else { continue };
        let report = genduvo::report::Report::read(&accepted.report).expect("a report");
        let value = parsed(&run(&["json", &file]).out);
        assert_eq!(value.get("reply").number(), report.reply().into(), "{file}");
        assert_eq!(value.get("signatures").list().len(), report.signatures().count(), "{file}");
        assert_eq!(value.get("slots").list().len(), report.slots().count(), "{file}");
        assert_eq!(value.get("branches").list().len(), report.branches().count(), "{file}");
        assert_eq!(value.get("inspections").list().len(), report.inspections().count(), "{file}");
        let records = value.get("records").list();
        assert_eq!(records.len(), report.records().count(), "{file}");
        for (said, record) in records.iter().zip(report.records()) {
            assert_eq!(masks(said.get("stack")), as_reported(record.stack()), "{file}");
            assert_eq!(masks(said.get("locals")), as_reported(record.locals()), "{file}");
            assert_eq!(said.get("outputs").list().len(), record.outputs().len(), "{file}");
            assert_eq!(said.get("guards").list().len(), record.guards().len(), "{file}");
            compared += 1;
        }
    }
    assert!(compared > 100, "{compared} records");
}
