//! What is printed as JSON.

use crate::answer::Reply;
use crate::command::{Cast, Order, Pwm};
use crate::replay::page::Page;
use crate::replay::script::{Report, Sent};
use crate::replay::{words, Exchange, Fields, Mark, Stop};
use crate::Refusal;

/// A telegram and its answer.
pub(super) fn telegram(
    page: &mut Page,
    mark: Mark,
    sent: &Sent,
    outcome: &Result<Exchange, Refusal>,
) {
    stands(page, mark);
    bytes(page, ",\"tx\":\"", sent.bytes());
    let exchange = match outcome {
        Err(refusal) => return refused(page, *refusal),
        Ok(exchange) => exchange,
    };
    command(page, &exchange.order);
    if exchange.either.is_some() {
        page.text(",\"either\":true");
    }
    match &exchange.answer {
        None => page.text(",\"rx\":null}\n"),
        Some((answer, reply)) => {
            bytes(page, ",\"rx\":\"", answer.bytes());
            answered(page, reply);
        }
    }
}

/// A command that is done or accepted, to whom it goes and what it carries.
pub fn command(page: &mut Page, order: &Order) {
    let command = order.command();
    name(
        page,
        ",\"number\":0,\"command\":\"",
        words::command(command.name()),
    );
    let (cast, value) = match order.cast() {
        Cast::Everyone => (",\"cast\":\"everyone\",\"value\":", 0),
        Cast::One(lamp) => (",\"cast\":\"one\",\"value\":", lamp.address()),
        Cast::Members(group) => (",\"cast\":\"group\",\"value\":", u16::from(group.number())),
    };
    number(page, cast, value);
    bytes(page, ",\"payload\":\"", command.payload().bytes());
}

/// Whose answer it is and what it carries, which ends the line.
pub fn answered(page: &mut Page, reply: &Reply) {
    number(page, ",\"address\":", reply.address());
    bytes(page, ",\"answer\":\"", reply.answer().payload().bytes());
    page.text("}\n");
}

/// A sensor report.
pub(super) fn sensor(page: &mut Page, mark: Mark, report: &Report, outcome: Result<(), Refusal>) {
    stands(page, mark);
    number(page, ",\"place\":", report.place.0);
    number(page, ",\"temperature\":", report.temperature);
    number(page, ",\"faults\":", report.faults);
    match outcome {
        Ok(()) => page.text(",\"number\":0}\n"),
        Err(refusal) => refused(page, refusal),
    }
}

/// That the capture stopped.
pub(super) fn stopped(page: &mut Page, stop: Stop) {
    number(page, "{\"stopped\":", stop.position);
    refused(page, stop.refusal);
}

/// A lamp.
pub(super) fn lamp(page: &mut Page, place: u16, lamp: &Fields) {
    number(page, "{\"place\":", place);
    number(page, ",\"address\":", lamp.address);
    name(
        page,
        ",\"state\":\"",
        words::STATES[usize::from(lamp.state)],
    );
    number(page, ",\"com\":", lamp.com);
    let flags = words::flags(lamp.flags);
    list(page, ",\"flags\":[", flags, |page, flag| {
        name(page, "\"", flag)
    });
    number(page, ",\"temperature\":", lamp.temperature);
    let thresholds = lamp.thresholds.into_iter();
    list(page, ",\"thresholds\":[", thresholds, Page::decimal);
    number(page, ",\"setup\":", lamp.setup);
    let groups = words::groups(lamp.groups);
    list(page, ",\"groups\":[", groups, Page::decimal);
    let Pwm { red, green, blue } = lamp.pwm;
    let channels = [red, green, blue].into_iter();
    list(page, ",\"pwm\":[", channels, |page, channel| {
        name(page, "{\"mode\":\"", words::mode(channel.is_daytime()));
        number(page, ",\"duty\":", channel.duty());
        page.text("}");
    });
    page.text("}\n");
}

/// Where it stands, which starts the line.
fn stands(page: &mut Page, mark: Mark) {
    page.text("{\"");
    page.text(mark.name);
    number(page, "\":", mark.number);
}

/// A refusal, which ends the line.
fn refused(page: &mut Page, reason: Refusal) {
    refusal(page, reason);
    page.text("}\n");
}

/// A refusal with its number, its words and what it carries.
pub fn refusal(page: &mut Page, refusal: Refusal) {
    number(page, ",\"number\":", refusal.number());
    name(page, ",\"refusal\":\"", words::refusal(refusal));
    checksums(page, Some(refusal));
}

/// Both checksums, where a refusal carries them.
pub fn checksums(page: &mut Page, refusal: Option<Refusal>) {
    if let Some([computed, received]) = refusal.and_then(Refusal::checksums) {
        number(page, ",\"computed\":", computed);
        number(page, ",\"received\":", received);
    }
}

/// A number behind its key.
pub fn number(page: &mut Page, key: &str, number: impl Into<u64>) {
    page.text(key);
    page.decimal(number);
}

/// A name behind its key and a quotation mark.
pub fn name(page: &mut Page, key: &str, name: &str) {
    page.text(key);
    page.text(name);
    page.text("\"");
}

/// Bytes in hex behind their key and a quotation mark.
pub fn bytes(page: &mut Page, key: &str, bytes: &[u8]) {
    page.text(key);
    page.hex(bytes);
    page.text("\"");
}

/// A list behind its key and a bracket.
fn list<T>(
    page: &mut Page,
    key: &str,
    things: impl Iterator<Item = T>,
    mut print: impl FnMut(&mut Page, T),
) {
    page.text(key);
    for (at, thing) in things.enumerate() {
        if at > 0 {
            page.text(",");
        }
        print(page, thing);
    }
    page.text("]");
}
