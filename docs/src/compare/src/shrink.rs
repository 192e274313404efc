//! Shortens what shows a difference.

use plain_card::holding::Holding;
use plain_card::member::{Member, Mode};
use plain_card::object::Objects;
use plain_card::part::{inventory, MAX_QUEUES};
use plain_card::Card;

/// The items without those that are not needed to show it: pieces are left
/// out, large ones first, as long as `shows` still holds.
pub fn shrink<T: Clone>(mut items: Vec<T>, shows: impl Fn(&[T]) -> bool) -> Vec<T> {
    let mut piece = items.len().next_power_of_two();
    while piece > 0 {
        let mut at = 0;
        while at < items.len() {
            let mut fewer = items.clone();
            fewer.drain(at..(at + piece).min(items.len()));
            if shows(&fewer) {
                items = fewer;
            } else {
                at += piece;
            }
        }
        piece /= 2;
    }
    items
}

/// The card with as much of it fresh as still shows it.
pub fn simplify(mut card: Card, shows: impl Fn(&Card) -> bool) -> Card {
    for member in 0..card.members.len() {
        let fresh = Member::fresh(&card.setup, card.members[member].queues, 0);
        for change in changes(&card.members[member], &fresh) {
            let mut simpler = card.clone();
            change(&mut simpler.members[member]);
            if shows(&simpler) {
                card = simpler;
            }
        }
    }
    card
}

/// A change of a record.
type Change<'a> = Box<dyn Fn(&mut Member) + 'a>;

/// Changes that bring a record closer to a fresh one, large ones first.
fn changes<'a>(record: &Member, fresh: &'a Member) -> Vec<Change<'a>> {
    let mut changes: Vec<Change<'a>> = vec![
        Box::new(|record| *record = fresh.clone()),
        Box::new(|record| record.values = fresh.values.clone()),
        Box::new(|record| record.objects = Objects::default()),
        Box::new(|record| record.marked = false),
        Box::new(|record| record.mode = Mode::Running),
        Box::new(|record| record.configuration = fresh.configuration.clone()),
        Box::new(|record| record.holding = Holding::default()),
        Box::new(|record| record.holding.room.fill(0)),
    ];
    for id in (0..16).filter(|id| record.objects.find(*id).is_some()) {
        changes.push(Box::new(move |record| record.objects.remove(id)));
    }
    for part in inventory(MAX_QUEUES) {
        changes.push(Box::new(move |record| {
            record.values.get_mut(part).copy_from_slice(fresh.values.get(part));
        }));
    }
    changes
}

#[cfg(test)]
mod tests {
    use super::shrink;

    #[test]
    fn only_what_is_needed_stays() {
        let shows = |items: &[u32]| items.contains(&7) && items.contains(&93);
        assert_eq!(shrink((0..100).collect(), shows), [7, 93]);
    }
}
