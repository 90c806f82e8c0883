//! Evidence files.

use super::reference::field;
use super::reference::table::TAG_END;
use super::reference::{INDIVIDUAL_BYTES, INDIVIDUAL_VALUE_BYTES, TAG_INDIVIDUAL, TAG_MAP};

/// The map with these images.
pub fn map(images: &[usize]) -> Vec<u8> {
    let mut file = field::head_bytes(TAG_MAP, 2 * images.len()).to_vec();
    for &image in images {
        file.extend((image as u16).to_be_bytes());
    }
    file.extend(field::head_bytes(TAG_END, 0));
    file
}

/// The refutation with these individuals: parent, role and names.
pub fn refutation(individuals: &[(usize, u8, u64)]) -> Vec<u8> {
    let mut file = Vec::with_capacity((individuals.len() + 1) * INDIVIDUAL_BYTES);
    for &(parent, role, names) in individuals {
        file.extend(field::head_bytes(TAG_INDIVIDUAL, INDIVIDUAL_VALUE_BYTES));
        file.extend((parent as u16).to_be_bytes());
        file.push(role);
        file.extend(names.to_be_bytes());
    }
    file.extend(field::head_bytes(TAG_END, 0));
    file
}
