//! The verified archive as a device.

use kajurnat::raw;
use plain_card::opcode::Opcode;

use super::{lists, loads, read_into, read_setup_into, Device};
use crate::call::Call;
use crate::fields::Fields;
use crate::memory::Lent;

/// The verified archive, with a planted misuse or without.
pub struct Archive {
    card: Lent,
    misuse: Option<Misuse>,
    violations: Vec<String>,
}

/// A planted fault: what a wrong program does with its buffers besides what the
/// archive does.
pub type Misuse = fn(&Call, &mut Lending);

/// The buffers of a call, once the archive has answered.
pub struct Lending<'a> {
    /// The card.
    pub card: &'a mut Lent,
    /// What the call only reads, in the order of [`Call::inputs`].
    pub inputs: &'a mut [Lent],
    /// The buffer that is written besides the card.
    pub reply: &'a mut Lent,
}

impl Archive {
    /// An archive without a card: no bytes.
    pub fn new(misuse: Option<Misuse>) -> Archive {
        Archive { card: Lent::patterned(0.into()), misuse, violations: vec![] }
    }

    /// The answer of the archive.
    fn answer(&mut self, call: &Call, inputs: &[Lent], reply: &mut [u8]) -> usize {
        let card = self.card.bytes_mut();
        let input = inputs.first().map_or(&[][..], Lent::bytes);
        let second = inputs.get(1).map_or(&[][..], Lent::bytes);
        match call {
            Call::CardBytes(members) => raw::card_bytes(*members),
            Call::Setup { numbers: [n, g, s], .. } => {
                raw::setup(card, *n, input, *g, *s, second).into()
            }
            Call::SetupFrom { .. } => raw::setup_from(card, input).into(),
            Call::Card(_) => 0,
            Call::Command { .. } => raw::command(card, input, reply),
            Call::Message { .. } => raw::message(card, input, reply),
            Call::HandBack(member) => raw::hand_back(card, *member).into(),
            Call::Wipe { member, generation } => raw::wipe(card, *member, *generation).into(),
            Call::ResetCard(generation) => raw::reset_card(card, *generation).into(),
            Call::Store { member, part_type, selector, .. } => {
                raw::store(card, *member, *part_type, *selector, input).into()
            }
            Call::Begin(member) => raw::restore_begin(card, *member) as usize,
            Call::Feed { member, .. } => raw::restore_feed(card, *member, input) as usize,
            Call::Finish { member, id } => raw::restore_finish(card, *member, *id) as usize,
            Call::Drop(member) => raw::restore_drop(card, *member) as usize,
            Call::Build { fields, .. } => build(fields, input, reply),
            Call::Read { opcode, what, .. } => read_into(reply, |numbers| {
                let [a, b, c, d] = numbers;
                raw::reply_read(*opcode, *what, input, a, b, c, d)
            }),
            Call::WriteSetup { numbers: [n, g, s], .. } => {
                raw::setup_write(reply, *n, input, *g, *s, second)
            }
            Call::ReadSetup { first, lengths, .. } => {
                let read = if *first { raw::setup_read_v1 } else { raw::setup_read };
                read_setup_into(reply, lengths[0], |[n, g, s], queues, features| {
                    read(input, n, queues, g, s, features)
                })
            }
            Call::Lists(call) => lists::archive(call, inputs, reply),
            Call::Load(call) => loads::archive(call, card, reply),
        }
    }
}

/// A request by the archive's builders.
fn build(fields: &Fields, list: &[u8], buffer: &mut [u8]) -> usize {
    let Fields { opcode, member, id, byte, mask } = *fields;
    match opcode {
        Opcode::ListQuery => raw::request_list_query(buffer),
        Opcode::ListUse => raw::request_list_use(buffer, mask),
        Opcode::Create => raw::request_create(buffer, member, id, byte),
        Opcode::Modify => raw::request_modify(buffer, member, id, byte),
        Opcode::Query => raw::request_query(buffer, member, id),
        Opcode::Destroy => raw::request_destroy(buffer, member, id),
        Opcode::Metadata => raw::request_metadata(buffer, member, id, byte),
        Opcode::PartsGet => raw::request_get(buffer, member, id, byte, list),
        Opcode::PartsSet => raw::request_set(buffer, member, id, list),
        Opcode::ModeSet => raw::request_mode(buffer, member, byte),
    }
}

impl Device for Archive {
    fn call(&mut self, call: &Call, reply: &mut Lent) -> usize {
        match call {
            Call::Setup { card, .. } | Call::SetupFrom { card, .. } => {
                self.card = Lent::patterned(*card);
            }
            Call::Card(bytes) => self.card = Lent::holding(bytes),
            _ => {}
        }
        let sent = call.inputs();
        let mut inputs: Vec<Lent> = sent.iter().map(|(_, sent)| Lent::holding(sent)).collect();
        let answer = self.answer(call, &inputs, reply.bytes_mut());
        if let Some(misuse) = self.misuse {
            misuse(call, &mut Lending { card: &mut self.card, inputs: &mut inputs, reply });
        }
        for ((name, sent), mut input) in sent.into_iter().zip(inputs) {
            if !input.holds(sent) {
                self.violations.push(format!("bytes of the {name} were changed"));
            }
            self.violations.extend(input.violations(name));
        }
        answer
    }

    fn card(&mut self) -> &[u8] {
        self.card.bytes()
    }

    fn is_sound(&mut self) -> u8 {
        raw::is_sound(self.card.bytes())
    }

    fn violations(&mut self) -> Vec<String> {
        let mut violations = std::mem::take(&mut self.violations);
        violations.extend(self.card.violations("card"));
        violations
    }
}
