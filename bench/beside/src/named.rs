//! The differences that docs/rust.md names. All of them are about floats: which are refused, and which text one has.
use crate::call::{Call, Form};
use crate::side::Answer;

/// Why two answers differ.
pub enum Reason {
    /// They don't.
    Alike,
    /// A difference that the page names.
    Named(&'static str),
    /// Another one.
    Other,
}

const REFUSAL: &str = "InvalidInput: a float is NaN, infinite or too large";

/// Returns a text of digits, rounded to 30 places. A text with more of them is that of a number below 1.
fn rounded(text: &str) -> String {
    let Some(places) = text.strip_prefix("0.").filter(|places| places.len() > 30) else { return text.to_string() };
    let number = places[..30].parse::<u128>().unwrap() + u128::from(places.as_bytes()[30] >= b'5');
    let text = format!("0.{number:030}");
    text.trim_end_matches('0').trim_end_matches('.').to_string()
}

/// Returns the text of the other one of two shortest decimals that are equally near to a size, if its last digit is
/// even, for a size of which the page says that the binding prints that one.
fn even(size: f64, text: &str) -> Option<String> {
    let last = text.rfind(|digit| ('1'..='9').contains(&digit))?;
    let digit = text.as_bytes()[last] - 1;
    let other = format!("{}{}{}", &text[..last], char::from(digit), &text[last + 1..]);
    // all digits of the float: after those of the other text comes a 5 alone, so the float is in the middle
    let exact = format!("{size:.1080}");
    let is_middle = exact.starts_with(&other[..=last]) && exact[last + 1..].trim_matches(['.', '0']) == "5";
    let in_range = (2f64.powi(-10)..2f64.powi(52)).contains(&size);
    (!in_range && digit % 2 == 0 && is_middle && other.parse() == Ok(size)).then_some(other)
}

/// Returns the text that the binding prints for a float, and why it isn't that of Rust, if it isn't.
fn text_of(x: f64) -> (String, &'static str) {
    let rust = x.abs().to_string();
    let (text, why) = match even(x.abs(), &rust) {
        _ if x == 0.0 => ("0".to_string(), "a zero has no sign"),
        Some(other) => (rounded(&other), "the other one of two shortest texts"),
        None => (rounded(&rust), "more than 30 places are rounded"),
    };
    if x < 0.0 && text != "0" {
        (format!("-{text}"), why)
    } else {
        (text, why)
    }
}

/// Returns the line that the binding makes, of the one that the crate made, and what differs in it.
fn expected_line(call: &Call, line: &str) -> Option<(String, &'static str)> {
    let prefix = match &*call.prefix {
        prefix if call.is_constructed() || prefix.is_empty() => prefix.to_string(),
        prefix => format!("{}.", prefix.trim_end_matches('.')),
    };
    let head = format!("{prefix}{}:", call.key);
    let (mut value, rest) = line.strip_prefix(&head)?.split_once('|').map(|(value, rest)| (value.to_string(), rest))?;
    let mut reason = "";
    let mut text = |x: f64| {
        let (text, why) = text_of(x);
        if text != x.to_string() {
            reason = why;
        }
        text
    };
    if !call.value.floats().is_empty() {
        value = call.value.floats().iter().map(|x| text(*x)).collect::<Vec<_>>().join(":");
    }
    let (kind, mut rest) = (call.kind.text(), rest.strip_prefix(call.kind.text())?);
    let mut rate = String::new();
    if let Some(x) = call.sent_rate() {
        rest = rest.strip_prefix(&format!("|@{x}"))?;
        rate = format!("|@{}", text(x));
    }
    Some((format!("{head}{value}|{kind}{rate}{rest}"), reason))
}

/// Returns what the binding answers if it refuses a float.
fn refusal(call: &Call) -> Answer {
    match call.form {
        Form::Send => Answer { returned: Ok(String::new()), emitted: Vec::new(), handled: vec![REFUSAL.to_string()] },
        _ => Answer { returned: Err(REFUSAL.to_string()), emitted: Vec::new(), handled: Vec::new() },
    }
}

impl Reason {
    /// Returns why the answers of a call differ.
    pub fn of(call: &Call, ours: &Answer, theirs: &Answer) -> Reason {
        if ours == theirs {
            return Reason::Alike;
        }
        let is_refused = call.value.floats().iter().any(|x| !(x.abs() <= 2f64.powi(127)))
            || call.sent_rate().is_some_and(|x| !(x.abs() < 2f64.powi(63)));
        if is_refused && !call.is_constructed() {
            return if *ours == refusal(call) { Reason::Named("a float is refused") } else { Reason::Other };
        }
        let [line] = &theirs.emitted[..] else { return Reason::Other };
        let Some((expected, why)) = expected_line(call, line) else { return Reason::Other };
        let returned = if call.form == Form::Send { String::new() } else { expected.clone() };
        if *ours == (Answer { returned: Ok(returned), emitted: vec![expected], handled: Vec::new() }) {
            Reason::Named(why)
        } else {
            Reason::Other
        }
    }
}
