//! Values of agent lines: names, what stands behind them, and stars.

use crate::random::Random;
use crate::text::{any_octets, good_name, well_formed, MOST_NAME};

const NAME_OCTETS: &[u8] = b"ABCDEFGHIJKLMNOPQRSTUVWXYZabcdefghijklmnopqrstuvwxyz-_";

/// A value of an agent line, readable or not. Any octet may stand first, in the
/// middle and last.
pub(crate) fn agent_value(random: &mut Random) -> Vec<u8> {
    let name = long_or_short_name(random);
    let octet = [random.octet()];
    match random.below(100) {
        0..=9 => name,
        10..=34 => [name, behind_name(random)].concat(),
        35..=51 => [octet.as_slice(), &name].concat(),
        52..=68 => [name.as_slice(), &octet, &long_or_short_name(random)].concat(),
        69..=85 => [name.as_slice(), &octet].concat(),
        86..=91 => unreadable_agent(random, &name),
        92 => b"*".to_vec(),
        93..=95 => good_name(random),
        _ => any_octets(random, 9),
    }
}

/// A name of a file; some are about as long as a crawler's may be.
fn long_or_short_name(random: &mut Random) -> Vec<u8> {
    let length = match random.below(12) {
        0 => random.between(MOST_NAME - 1, MOST_NAME + 2),
        _ => random.between(1, 9),
    };
    (0..length).map(|_| random.octet_of(NAME_OCTETS)).collect()
}

/// What stands behind a name: a version or other text.
pub(crate) fn behind_name(random: &mut Random) -> Vec<u8> {
    let other: &[u8] = random.pick(&[
        b" b", b"/", b"9", b".x", b"*", b"**", b":", b"\t-", b"\0", b"(+/a)", b";_",
    ]);
    match random.below(8) {
        0 => [&[random.octet()], any_octets(random, 5).as_slice()].concat(),
        1 => well_formed(random).to_vec(),
        2..=4 => version(random),
        _ => other.to_vec(),
    }
}

fn version(random: &mut Random) -> Vec<u8> {
    let front = random.pick(&["/", "/", "/", " ", "/v", "\t"]);
    format!("{front}{}.{}", random.below(30), random.below(30)).into_bytes()
}

/// A value that begins with "*" and isn't that alone, or with another octet
/// that no name has.
pub(crate) fn unreadable_agent(random: &mut Random, name: &[u8]) -> Vec<u8> {
    let front: &[u8] = random.pick(&[b"*", b"**", b"*/", b"* ", b"*\0", b"2", b"/", b".", b":"]);
    if random.one_in(3) {
        return [front, b"*"].concat();
    }
    [front, name].concat()
}
