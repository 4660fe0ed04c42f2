//! A listing as text.

use crate::dump::fault::Fault;
use crate::dump::{Last, Meaning};
use crate::replay::page::Page;
use crate::replay::text;

/// The columns of the bytes of a telegram.
const COLUMNS: usize = 37;
/// What stands below a refused telegram begins where its bytes do.
const INDENT: &str = "            ";

/// A telegram: its position, its bytes and what they say.
pub fn telegram(page: &mut Page, position: u64, bytes: &[u8], meaning: &Meaning) {
    heading(page, position, bytes);
    say(page, meaning);
    page.text("\n");
}

/// A refused telegram.
pub fn fault(page: &mut Page, position: u64, fault: &Fault) {
    heading(page, position, fault.bytes);
    page.show(format_args!("{}\n", fault.refusal));
    if let Some(expected) = fault.expected() {
        page.show(format_args!("{INDENT}expected {expected}\n"));
    }
    page.show(format_args!("{INDENT}{}\n", fault.claims()));
    if let Some((checksum, meaning)) = fault.mended() {
        page.show(format_args!("{INDENT}with checksum {checksum:02X}: "));
        say(page, &meaning);
        page.text("\n");
    }
}

/// The last line: where the reading ended or stopped, and what was read.
pub fn last(page: &mut Page, last: &Last) {
    let (position, tally) = (last.position, &last.tally);
    let (stands, before) = match last.refusal {
        None => ("ended", ""),
        Some(_) => ("stopped", " before it"),
    };
    let telegrams = counted(tally.telegrams(), "telegram");
    page.show(format_args!(
        "{stands} at position {position}: {telegrams}{before}"
    ));
    match last.refusal {
        Some(refusal) if last.quiet => page.show(format_args!(", {refusal}")),
        None if last.quiet => {}
        _ => {
            let commands = counted(tally.commands, "command");
            let answers = counted(tally.answers, "answer");
            page.show(format_args!(" ({commands}, {answers}"));
            if tally.either > 0 {
                page.show(format_args!(", {} either", tally.either));
            }
            page.show(format_args!(", {} neither)", tally.neither));
        }
    }
    page.text("\n");
}

/// The position and the bytes, up to the words.
fn heading(page: &mut Page, position: u64, bytes: &[u8]) {
    page.show(format_args!("{position:>10}  "));
    let words_at = page.len() + COLUMNS;
    page.spaced(bytes);
    page.pad(words_at);
}

/// What a telegram says.
fn say(page: &mut Page, meaning: &Meaning) {
    match meaning {
        Meaning::Command(order) => text::command(page, order),
        Meaning::Answer(reply) => text::answered(page, reply),
        Meaning::Either(order, reply) => {
            text::command(page, order);
            page.text(", or ");
            text::answered(page, reply);
        }
        Meaning::Neither(as_command, as_answer) => page.show(format_args!(
            "neither: as a command refused {}, as an answer refused {}",
            as_command.number(),
            as_answer.number()
        )),
    }
}

/// A count and what is counted.
fn counted(count: u64, thing: &str) -> String {
    let plural = if count == 1 { "" } else { "s" };
    format!("{count} {thing}{plural}")
}
