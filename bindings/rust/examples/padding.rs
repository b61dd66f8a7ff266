//! A record as it stands in both memories: a row for each eight bytes, a letter for each byte of a member and
//! a dot for each that is lost.
use lampughjata::{Memory, Placement, Reference, Refused, Table};

fn main() -> Result<(), Refused> {
    let members = [
        ("state", Reference::U8),
        ("taken-at", Reference::U64),
        ("channel", Reference::U8),
        ("name", Reference::STRING),
        ("checksum", Reference::U16),
    ];
    for (letter, (name, _)) in letters().zip(members) {
        println!("{letter}  {name}");
    }

    // No member is a definition, so the table has no rows.
    let table = Table::build(&[])?;
    let types = members.map(|(_, reference)| reference);
    for (width, memory) in [(32, Memory::Memory32), (64, Memory::Memory64)] {
        let placed = table.placement(memory, &types)?;
        println!("\n{width}-bit memory");
        for (row, bytes) in picture(&placed).chunks(8).enumerate() {
            println!("{:4}  {}", 8 * row, bytes.iter().collect::<String>());
        }
        println!("{} of {} bytes lost", placed.padding(), placed.size);
    }
    Ok(())
}

/// One for each member.
fn letters() -> impl Iterator<Item = char> {
    'a'..='z'
}

/// The record byte by byte.
fn picture(placed: &Placement) -> Vec<char> {
    let mut bytes = vec!['.'; placed.size as usize];
    for ((letter, start), end) in letters().zip(&placed.offsets).zip(ends(placed)) {
        bytes[*start as usize..end as usize].fill(letter);
    }
    bytes
}

/// Where each member ends: where the gap begins that comes after it.
fn ends(placed: &Placement) -> impl Iterator<Item = u32> {
    let others = placed.offsets.iter().zip(&placed.gaps).skip(1);
    let before_others = others.map(|(start, gap)| start - gap);
    before_others.chain([placed.size - placed.gap_after])
}
