// As driver.py, for the client in Rust.
use noticed::*;
use std::collections::HashMap;
use std::io::{self, BufRead, Write};
use std::time::Duration;

fn from_hex(text: &str) -> Vec<u8> {
    (0..text.len() / 2).map(|at| u8::from_str_radix(&text[2 * at..2 * at + 2], 16).unwrap()).collect()
}

struct Request { kind: String, number: u32, fields: HashMap<String, String>, texts: HashMap<String, Vec<u8>> }

impl Request {
    fn new(line: &str) -> Self {
        let mut words = line.split(' ');
        let (kind, number) = (words.next().unwrap().to_string(), words.next().unwrap().parse().unwrap());
        let fields: HashMap<String, String> =
            words.map(|it| it.split_once('=').unwrap()).map(|(name, value)| (name.to_string(), value.to_string())).collect();
        let texts = fields.iter().filter(|(_, it)| it.len() % 2 == 0 && it.chars().all(|at| at.is_ascii_hexdigit()));
        let texts = texts.map(|(name, value)| (name.clone(), from_hex(value))).collect();
        Request { kind, number, fields, texts }
    }
    fn number(&self, name: &str) -> Option<u64> { self.fields.get(name).map(|it| it.parse().unwrap()) }
    fn text(&self, name: &str) -> &[u8] { self.texts.get(name).map(Vec::as_slice).unwrap_or(b"") }
    fn key(&self) -> Key<'_> {
        let services = [Service::Bounce, Service::Defer, Service::Trace];
        Key { service: services[self.number("service").unwrap() as usize - 1], queue_id: self.text("queue_id") }
    }
    fn outcome(&self) -> Outcome<'_> {
        let actions = [Action::Failed, Action::Delayed, Action::Delivered, Action::Relayed, Action::Expanded];
        Outcome {
            original_recipient: self.text("original_recipient"),
            remote_mta: self.text("remote_mta"),
            diagnostic: self.text("diagnostic"),
            reason: self.text("reason"),
            last_attempt: self.number("last_attempt"),
            retry_until: self.number("retry_until"),
            recipient_type: self.text("recipient_type"),
            original_type: self.text("original_type"),
            diagnostic_type: self.text("diagnostic_type"),
            extensions: self.text("extensions"),
            ..Outcome::new(self.text("recipient"), actions[self.number("action").unwrap() as usize - 1], self.text("status"))
        }
    }
    fn notice(&self) -> Notice<'_> {
        let returned = [Returned::Header, Returned::Message, Returned::EightBitMessage, Returned::MessageOrHeader];
        let at = |name| self.number(name).unwrap();
        Notice {
            envelope_id: self.text("envelope_id"),
            header: self.text("header"),
            returned: returned[self.number("returned").unwrap_or(0) as usize],
            extensions: self.text("extensions"),
            ..self.worded(Notice::new(self.text("return_path"), at("moment"), at("arrival"), at("expected") as u32))
        }
    }
    fn worded<'a>(&self, it: Notice<'a>) -> Notice<'a> {
        match self.number("wording") {
            None => it,
            Some(0) => Notice { wording: Wording::ByService, ..it },
            Some(_) => Notice { wording: Wording::ByOutcome, ..it },
        }
    }
}

fn encoded(line: &str) -> String {
    let it = Request::new(line);
    let frame = match it.kind.as_str() {
        "append" => encode_append(it.number, it.key(), &it.outcome()),
        "flush" => encode_flush(it.number, it.key(), &it.notice()),
        "discard" => encode(3, it.number, it.key(), b""),
        _ => encode(4, it.number, it.key(), b""),
    };
    frame.map(|it| it.iter().map(|byte| format!("{byte:02x}")).collect()).unwrap_or("invalid".to_string())
}

fn shown(it: Answer) -> String {
    format!("{} {} {}", it.reply as u8, it.value, it.serial.map(|it| it.to_string()).unwrap_or("-".to_string()))
}

fn decoded(line: &str) -> String {
    decode(&mut from_hex(line).as_slice()).map(|(number, it)| format!("{number} {}", shown(it))).unwrap_or("invalid".to_string())
}

fn carry(client: &mut Client, line: &str) -> String {
    if line == "close" {
        client.close();
        return "closed".to_string();
    }
    let it = Request::new(line);
    let result = match it.kind.as_str() {
        "append" => client.append(it.key(), &it.outcome(), it.number("place").map(|it| it as u32)),
        "flush" => client.flush(it.key(), &it.notice()),
        "discard" => client.discard(it.key()),
        _ => client.forget(it.key()),
    };
    match result {
        Ok(answer) => shown(answer),
        Err(Error::Invalid(_)) => "invalid".to_string(),
        Err(Error::Unreachable(_)) => "unreachable".to_string(),
        Err(Error::Unanswered(_)) => "unanswered".to_string(),
        Err(Error::Denied(_)) => "denied".to_string(),
        Err(Error::PathTooLong(_)) => "path".to_string(),
        Err(why @ Error::Refused(_)) => why.to_string(),
    }
}

fn main() {
    let words: Vec<String> = std::env::args().collect();
    let mut client = Client::new(words.get(2).map(String::as_str).unwrap_or(""));
    let Limits { connect, send, worker, answer, request, reach } = &mut client.limits;
    for (limit, word) in [connect, send, worker, answer, request, reach].into_iter().zip(words.iter().skip(3)) {
        *limit = Duration::from_secs_f64(word.parse().unwrap());
    }
    for line in io::stdin().lock().lines().map(Result::unwrap) {
        let said = match words[1].as_str() {
            "encode" => encoded(&line),
            "decode" => decoded(&line),
            _ => carry(&mut client, &line),
        };
        println!("{said}");
        io::stdout().flush().unwrap();
    }
}
