//! Page words: the first eight bytes of a text, the lowest first; bytes that it lacks are 0. Due is what
//! procfs-core answers. It has no name for bit 57, which is told by pagemap.rst.

use crate::dice::Dice;
use crate::record::{Answer, Due};
use crate::text::Text;
use procfs_core::process::{MemoryPageFlags as Memory, PageInfo, SwapPageFlags as Swap};

pub fn listed() -> Vec<Vec<u8>> {
    let mut words = vec![0, u64::MAX];
    for high in 0..64 {
        for low in 0..64 {
            words.push(1 << high | 1 << low);
            words.push(!(1 << high | 1 << low));
            words.push((1u64 << high).wrapping_sub(1 << low));
        }
    }
    words
        .iter()
        .map(|word: &u64| word.to_le_bytes().to_vec())
        .collect()
}

pub fn generated(dice: &mut Dice) -> Vec<u8> {
    let word = match dice.below(3) {
        0 => dice.next(),
        1 => dice.next() & dice.next() & dice.next(),
        _ => dice.next() >> dice.below(64) | 1 << dice.below(64),
    };
    word.to_le_bytes().to_vec()
}

pub fn due(text: Text) -> Result<Due, String> {
    let mut word = [0; 8];
    for (place, byte) in word.iter_mut().zip(text.bytes) {
        *place = *byte;
    }
    let word = u64::from_le_bytes(word);
    let told = match PageInfo::parse_info(word) {
        PageInfo::MemoryPage(page) => {
            let frame = page.get_page_frame_number().0;
            let named = [
                page.contains(Memory::SOFT_DIRTY),
                page.contains(Memory::MMAP_EXCLUSIVE),
                word >> 57 & 1 == 1,
                page.contains(Memory::FILE),
                page.contains(Memory::SWAP),
                page.contains(Memory::PRESENT),
            ];
            format!("memory {} {frame}{}", page.bits(), flags(named))
        }
        PageInfo::SwapPage(page) => {
            let (sort, offset) = (page.get_swap_type(), page.get_swap_offset());
            let named = [
                page.contains(Swap::SOFT_DIRTY),
                page.contains(Swap::MMAP_EXCLUSIVE),
                word >> 57 & 1 == 1,
                page.contains(Swap::FILE),
                page.contains(Swap::SWAP),
                page.contains(Swap::PRESENT),
            ];
            format!("swap {} {sort} {offset}{}", page.bits(), flags(named))
        }
    };
    Ok(Due {
        ours: Answer::Accepted(told),
        difference: None,
    })
}

/// Each after a space.
fn flags(named: [bool; 6]) -> String {
    named.map(|flag| format!(" {flag}")).concat()
}
