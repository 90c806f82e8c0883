//! Files of books, of cards and of definitions.

use super::reference::definitions::TAG_DEFINITION;
use super::reference::field;
use super::reference::most_specific::TAG_CARD;
use super::reference::table::TAG_END;

/// The book of these cards.
pub fn encode(cards: &[Vec<u8>]) -> Vec<u8> {
    let mut file = Vec::new();
    for card in cards {
        file.extend(field::head_bytes(TAG_CARD, card.len()));
        file.extend(card);
    }
    file.extend(field::head_bytes(TAG_END, 0));
    file
}

/// The book of these definitions: names and pictures.
pub fn definitions(definitions: &[(u8, Vec<u8>)]) -> Vec<u8> {
    let mut file = Vec::new();
    for (name, picture) in definitions {
        file.extend(field::head_bytes(TAG_DEFINITION, 1 + picture.len()));
        file.push(*name);
        file.extend(picture);
    }
    file.extend(field::head_bytes(TAG_END, 0));
    file
}
