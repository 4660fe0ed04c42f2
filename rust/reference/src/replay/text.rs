//! What is printed as text.

use crate::answer::{Answer, Health, Reply};
use crate::command::{Cast, Channel, Command, Order, Pwm};
use crate::replay::page::{hex, Page};
use crate::replay::script::{Report, Sent};
use crate::replay::{words, Exchange, Fields, Mark, Stop};
use crate::telegram::LONGEST;
use crate::Refusal;
use std::fmt::{self, Display, Formatter};

/// Where the words of a line begin.
const COLUMN: usize = 40;
/// Where the last byte of the longest telegram stands.
const LAST_BYTE: usize = 3 * LONGEST;
/// Above the lamps.
const HEAD: &str = "place addr state         com   temp thresholds setup \
                    red         green       blue        flags               groups\n";

/// A telegram, and its answer below it.
pub(super) fn telegram(
    page: &mut Page,
    mark: Mark,
    sent: &Sent,
    outcome: &Result<Exchange, Refusal>,
) {
    bytes(page, b"tx ", sent);
    match outcome {
        Err(refusal) => refused(page, mark, *refusal),
        Ok(exchange) => done(page, exchange),
    }
}

/// What a telegram says that was done, and its answer below it.
fn done(page: &mut Page, exchange: &Exchange) {
    command(page, &exchange.order);
    if let Some(reply) = exchange.either {
        page.text(" (or an answer of ");
        page.address(reply.address());
        page.text("; done as a command)");
    }
    match &exchange.answer {
        None => page.text("\nrx none\n"),
        Some((answer, reply)) => {
            page.text("\n");
            bytes(page, b"rx ", answer);
            answered(page, reply);
            page.text("\n");
        }
    }
}

/// A sensor report.
pub(super) fn sensor(page: &mut Page, mark: Mark, report: &Report, outcome: Result<(), Refusal>) {
    let words_at = page.len() + COLUMN;
    page.text("sensor ");
    page.decimal(report.place.0);
    page.text(" ");
    page.raw(&hex(report.temperature));
    page.text(" ");
    page.decimal(report.faults);
    page.pad(words_at);
    if let Err(refusal) = outcome {
        return refused(page, mark, refusal);
    }
    page.text("place ");
    page.decimal(report.place.0);
    page.text(": temperature ");
    page.raw(&hex(report.temperature));
    page.text(", sets ");
    flags(page, report.faults as u8, "no flag");
    page.text("\n");
}

/// That the capture stopped.
pub(super) fn stopped(page: &mut Page, stop: Stop) {
    page.show(format_args!("{stop}\n"));
}

/// An empty line, unless the lamps stand alone, and what stands above them.
pub(super) fn head(page: &mut Page, alone: bool) {
    if !alone {
        page.text("\n");
    }
    page.text(HEAD);
}

/// The row of a lamp.
pub(super) fn lamp(page: &mut Page, place: u16, lamp: &Fields) {
    page.right(place);
    page.text(" ");
    page.address(lamp.address);
    page.text("  ");
    page.left(words::STATES[usize::from(lamp.state)], 14);
    page.left(words::COMS[usize::from(lamp.com)], 6);
    page.raw(&hex(lamp.temperature));
    page.text("   ");
    page.spaced(&lamp.thresholds);
    page.text("   ");
    page.raw(&hex(lamp.setup));
    page.text("    ");
    let Pwm { red, green, blue } = lamp.pwm;
    for channel in [red, green, blue] {
        page.left(words::mode(channel.is_daytime()), 6);
        page.right(channel.duty());
        page.text(" ");
    }
    let groups_at = page.len() + 20;
    flags(page, lamp.flags, "none");
    page.pad(groups_at);
    groups(page, lamp.groups);
    page.text("\n");
}

/// The bytes of a telegram, up to the words.
fn bytes(page: &mut Page, label: &[u8; 3], sent: &Sent) {
    let mut column = [b' '; COLUMN];
    column[..3].copy_from_slice(label);
    // There are rooms for the bytes of the longest telegram.
    let rooms = column[3..].chunks_exact_mut(3);
    for (room, &byte) in rooms.zip(sent.bytes()) {
        room[..2].copy_from_slice(&hex(byte));
    }
    if sent.is_long() {
        column[LAST_BYTE..LAST_BYTE + 2].copy_from_slice(b"..");
    }
    page.raw(&column);
}

/// The number of the line or the position, and the refusal in words.
fn refused(page: &mut Page, mark: Mark, reason: Refusal) {
    page.text(mark.name);
    page.text(" ");
    page.decimal(mark.number);
    page.text(": ");
    refusal(page, reason);
    page.text("\n");
}

/// A refusal in words; 5 says both checksums.
pub fn refusal(page: &mut Page, refusal: Refusal) {
    page.text("refused ");
    page.decimal(refusal.number());
    page.text(": ");
    page.text(words::refusal(refusal));
    if let Some([computed, received]) = refusal.checksums() {
        value(page, " (worked out ", &[computed]);
        value(page, ", received ", &[received]);
        page.text(")");
    }
}

impl Display for Refusal {
    fn fmt(&self, out: &mut Formatter) -> fmt::Result {
        out.write_str(&Page::of(|page| refusal(page, *self)).written())
    }
}

/// A command in words.
pub fn command(page: &mut Page, order: &Order) {
    let name = order.command().name();
    page.text(words::command(name));
    match order.cast() {
        Cast::Everyone if name.is_init() => page.text(" at 000"),
        Cast::Everyone => page.text(" to everyone"),
        Cast::One(lamp) => {
            page.text(if name.is_init() {
                " from "
            } else {
                " to lamp "
            });
            page.address(lamp.address());
        }
        Cast::Members(group) => {
            page.text(" to group ");
            page.decimal(group.number());
        }
    }
    match order.command() {
        Command::SetMult(groups) | Command::SetMultSr(groups) => {
            value(page, ": mask ", &groups.to_be_bytes());
        }
        Command::SetOtTh(bytes) | Command::SetOtThSr(bytes) => thresholds(page, bytes),
        Command::SetSetup(setup) | Command::SetSetupSr(setup) => value(page, ": setup ", &[setup]),
        Command::SetPwm(words) | Command::SetPwmSr(words) => pwm(page, words),
        _ => {}
    }
}

/// An answer in words.
pub fn answered(page: &mut Page, reply: &Reply) {
    let answer = reply.answer();
    page.address(reply.address());
    page.text(" answers ");
    page.text(words::command(answer.name()));
    match answer {
        Answer::InitBidir(both)
        | Answer::InitLoop(both)
        | Answer::ReadTempSt(both)
        | Answer::GoSleepSr(both)
        | Answer::GoActiveSr(both)
        | Answer::GoDeepSleepSr(both)
        | Answer::SetMultSr(both)
        | Answer::SetOtThSr(both)
        | Answer::SetSetupSr(both)
        | Answer::SetPwmSr(both) => health(page, both),
        Answer::Identify(identity) => value(page, ": identity ", &identity.to_be_bytes()),
        Answer::ReadMult(groups) => value(page, ": mask ", &groups.to_be_bytes()),
        Answer::ReadStatus(byte) => status(page, ": status ", byte),
        Answer::ReadTemp(temperature) => value(page, ": temperature ", &[temperature]),
        Answer::ReadOtTh(bytes) => thresholds(page, bytes),
        Answer::ReadSetup(setup) => value(page, ": setup ", &[setup]),
        Answer::ReadPwm(words) => pwm(page, words),
    }
}

/// A value in hex behind its name.
fn value(page: &mut Page, name: &str, bytes: &[u8]) {
    page.text(name);
    page.hex(bytes);
}

/// The thresholds behind their name.
fn thresholds(page: &mut Page, bytes: [u8; 3]) {
    page.text(": thresholds ");
    page.spaced(&bytes);
}

/// Temperature and status behind their names.
fn health(page: &mut Page, health: Health) {
    value(page, ": temperature ", &[health.temperature]);
    status(page, ", status ", health.status);
}

/// A status byte behind its name, and what it says.
fn status(page: &mut Page, name: &str, byte: u8) {
    value(page, name, &[byte]);
    page.text(" (");
    page.text(words::STATES[usize::from(byte >> 6)]);
    page.text(", ");
    page.text(words::COMS[usize::from(byte >> 4 & 1)]);
    page.text(", ");
    flags(page, byte, "no flags");
    page.text(")");
}

/// The three colours in words.
fn pwm(page: &mut Page, pwm: Pwm) {
    channel(page, ": red ", pwm.red);
    channel(page, ", green ", pwm.green);
    channel(page, ", blue ", pwm.blue);
}

/// A colour in words behind its name.
fn channel(page: &mut Page, name: &str, channel: Channel) {
    page.text(name);
    page.text(words::mode(channel.is_daytime()));
    page.text(" ");
    page.decimal(channel.duty());
}

/// The flags of a status byte with a space between, or a word for none.
fn flags(page: &mut Page, status: u8, none: &str) {
    if status & words::FLAGS == 0 {
        return page.text(none);
    }
    let mut between = "";
    for name in words::flags(status) {
        page.text(between);
        page.text(name);
        between = " ";
    }
}

/// The numbers of the groups with a space between, or a word for none.
fn groups(page: &mut Page, word: u16) {
    if word == 0 {
        return page.text("none");
    }
    let mut between = "";
    for group in words::groups(word) {
        page.text(between);
        page.decimal(group);
        between = " ";
    }
}
