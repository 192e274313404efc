//! Cards and bytes as text.

use std::fmt;

use plain_card::bytes;
use plain_card::configuration::Configuration;
use plain_card::holding::Holding;
use plain_card::member::{Member, Mode};
use plain_card::part::{inventory, MAX_QUEUES};
use plain_card::setup::Common;
use plain_card::{Card, Setup};

/// Bytes in hexadecimal, with long runs of one byte shortened.
pub struct Hex<'a>(pub &'a [u8]);

impl fmt::Display for Hex<'_> {
    fn fmt(&self, f: &mut fmt::Formatter) -> fmt::Result {
        for (index, run) in self.0.chunk_by(|a, b| a == b).enumerate() {
            let space = if index > 0 { " " } else { "" };
            match run.len() {
                1 => write!(f, "{space}{:02x}", run[0])?,
                length => write!(f, "{space}{:02x}*{length}", run[0])?,
            }
        }
        Ok(())
    }
}

/// A card's bytes: by their meaning if they are sound, else as they are.
pub struct CardBytes<'a>(pub &'a [u8]);

impl fmt::Display for CardBytes<'_> {
    fn fmt(&self, f: &mut fmt::Formatter) -> fmt::Result {
        match bytes::read(self.0).filter(Card::is_sound) {
            Some(card) => sound_card(f, &card),
            None => write!(f, "card, not sound, of {} bytes: {}", self.0.len(), Hex(self.0)),
        }
    }
}

fn sound_card(f: &mut fmt::Formatter, card: &Card) -> fmt::Result {
    let Setup { common: Common { members: n, gets: g, sets: s, features }, queues } =
        card.whole_setup();
    write!(f, "card N={n} Q={queues:?} G={g} S={s}, features {}", Hex(&features))?;
    write!(f, ", in use {:#x}, fresh but for:", card.in_use)?;
    for (member, record) in (1..).zip(&card.members) {
        let fresh = Member::fresh(&card.setup, record.queues, 0);
        if *record != fresh {
            write!(f, "\n    member {member}")?;
            difference(f, record, &fresh)?;
        }
    }
    Ok(())
}

/// What makes a record differ from a fresh one.
fn difference(f: &mut fmt::Formatter, record: &Member, fresh: &Member) -> fmt::Result {
    if record.mode == Mode::Stopped {
        write!(f, ", stopped")?;
    }
    if record.marked {
        write!(f, ", handed back")?;
    }
    for (id, object) in record.objects.0.iter().enumerate() {
        if let Some(kind) = object {
            write!(f, ", object {id} {kind:?}")?;
        }
    }
    for part in inventory(MAX_QUEUES) {
        let value = record.values.get(part);
        if value != fresh.values.get(part) {
            write!(f, ", {part:?} {}", Hex(value))?;
        }
    }
    let Configuration { bytes, generation } = &record.configuration;
    if record.configuration != fresh.configuration {
        write!(f, ", configuration {} of generation {generation}", Hex(bytes))?;
    }
    let Holding { held, room } = &record.holding;
    if let Some(held) = held {
        write!(f, ", a holding place of {held} bytes")?;
    }
    if room != &fresh.holding.room {
        write!(f, ", bytes of the holding place {}", Hex(room))?;
    }
    Ok(())
}
