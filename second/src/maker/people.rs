//! Identities for scripts, many of them hard to tell apart.

use super::dice::Dice;

/// An identity of 1 to 62 octets.
pub fn identity(dice: &mut Dice) -> Vec<u8> {
    match dice.below(12) {
        0..=4 => format!("test{}", dice.any_of([0, 1, 1, 10, 100, 11, 2, 20, 3])).into_bytes(),
        5 => format!("test{}", dice.below(200)).into_bytes(),
        6 => format!("sip:user{}@mcptt.example", dice.below(40)).into_bytes(),
        7 => {
            let length = dice.any_of([60, 61, 61, 62, 62]);
            long(dice, length)
        }
        8 => vec![dice.octet()],
        9 => {
            let length = dice.between(1, 62);
            dice.octets(length)
        }
        // One who takes zeros for the end, or capitals for small letters, mixes these up.
        10 => [b"test1", &[0, 0, 0][..dice.below(4)]].concat(),
        _ => dice
            .any_of([&b"TEST1"[..], b"Test1", b"test1 ", b"tes", b"test"])
            .to_vec(),
    }
}

/// Many equal octets, then one that tells it apart.
pub fn long(dice: &mut Dice, length: usize) -> Vec<u8> {
    let mut identity = vec![b'x'; length.saturating_sub(1)];
    identity.push(b'a' + dice.below(20) as u8);
    identity
}

/// An identity of no octets or of too many.
pub fn bad_identity(dice: &mut Dice) -> Vec<u8> {
    let length = dice.any_of([0, 63, 63, 64, 70, 255, 256, 300]);
    match length {
        0 => Vec::new(),
        _ => long(dice, length),
    }
}

/// An SSRC, small ones often so that they meet.
pub fn ssrc(dice: &mut Dice) -> u32 {
    match dice.below(10) {
        0 => dice.any_of([0, 1, 0x7fff_ffff, 0x8000_0000, 0xffff_ffff]),
        1..=3 => dice.roll() as u32,
        // Told apart by the highest octet alone.
        4 => (dice.below(4) as u32) << 24 | 7,
        _ => dice.below(60) as u32,
    }
}
