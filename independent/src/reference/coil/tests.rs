//! W3's own figures, and what overlaid answers and fields on the coil come to.

use std::collections::BTreeSet;

use super::*;
use crate::crowds::{make_some_foreign, CROWDS};
use crate::random::Random;
use crate::reference::bench::Verdict;
use crate::reference::card::Card;
use crate::reference::field::card;
use crate::reference::tests::played;
use crate::reference::walk::Ending;

fn overlay(answers: &[&[u8]]) -> Result<Decoded, Refusal> {
    let tracks: Vec<Vec<u8>> = answers.iter().map(|answer| track_of(answer)).collect();
    decode(&overlaid(&tracks), LONGEST)
}

#[test]
fn start_end_and_e1() {
    assert_eq!(packed(&start()), [0x1D]);
    assert_eq!(packed(&end()), [0xB8]);
    assert_eq!(track_of(&[0xE1; 3]), [0x1D, 0x6A, 0x95, 0x6A, 0x95, 0x6A, 0x95, 0xB8]);
}

#[test]
fn answers_have_3_to_8451_bytes() {
    for length in [0, 1, 2, 3, 4, 8450, 8451, 8452, 8453] {
        let bytes = vec![0x5A; length];
        let right = (3..=8451).contains(&length);
        let (coded, decoded) = (code(&bytes, 20_000), decode(&track_of(&bytes), 20_000));
        assert_eq!(coded, if right { Ok(track_of(&bytes)) } else { Err(Refusal::LENGTH) });
        assert_eq!(decoded, if right { Ok(Decoded::Answer(bytes)) } else { Err(Refusal::Coil) });
    }
}

#[test]
fn two_bytes_overlaid() {
    for one in 0..=255 {
        for other in 0..=255u8 {
            let first = (one ^ other).trailing_zeros() as usize;
            let expected = match one == other {
                true => Decoded::Answer(vec![0x00, one, 0x00]),
                false => Decoded::Clash(8 + first),
            };
            assert_eq!(overlay(&[&[0x00, one, 0x00], &[0x00, other, 0x00]]), Ok(expected));
        }
    }
}

/// The end begins as a 0 does, and goes on as no bit does.
#[test]
fn unlike_lengths_overlaid() {
    let short = [0x11, 0x22, 0x33];
    assert_eq!(overlay(&[&short, &[0x11, 0x22, 0x33, 0x00]]), Ok(Decoded::Clash(25)));
    assert_eq!(overlay(&[&short, &[0x11, 0x22, 0x33, 0x02]]), Ok(Decoded::Clash(25)));
    assert_eq!(overlay(&[&short, &[0x11, 0x22, 0x33, 0x01]]), Ok(Decoded::Clash(24)));
    assert_eq!(overlay(&[&short, &[0x11, 0x22, 0x73, 0x00]]), Ok(Decoded::Clash(22)));
}

/// The walk and the cards, against the different answers alone.
#[test]
fn fields_on_the_coil() {
    let mut random = Random::new(3);
    let mut endings = BTreeSet::new();
    for (_, crowd) in CROWDS {
        for count in (0..9).chain([33, 64, 65, 100]) {
            for dsfids in [1, 2] {
                let mut uids = crowd(&mut random, count);
                if random.once_in(4) {
                    make_some_foreign(&mut random, &mut uids, 10);
                }
                let pairs: Vec<(u64, u8)> =
                    uids.into_iter().map(|uid| (uid, random.below(dsfids) as u8)).collect();
                let cards = pairs.iter().map(|&(uid, dsfid)| Card { dsfid, ..card(uid) }).collect();
                let different: BTreeSet<(u64, u8)> = pairs.into_iter().collect();
                let uids: Vec<u64> = different.iter().map(|(uid, _)| *uid).collect();
                let verdict = played(256, cards, together);
                assert_eq!(verdict, Verdict::of(&uids), "{different:X?}");
                endings.insert(format!("{:?}", verdict.ending));
            }
        }
    }
    assert_eq!(endings, ["Complete", "Full", "Twins"].map(String::from).into());
}

/// W3: two alike in UID and DSFID count as one; another DSFID makes twins.
#[test]
fn alike_cards_on_the_coil() {
    let field = |dsfids: [u8; 2]| {
        played(256, dsfids.map(|dsfid| Card { dsfid, ..card(0xE004010000000011) }).into(), together)
    };
    let list = vec![0xE004010000000011];
    assert_eq!(field([0xD5, 0xD5]), Verdict { ending: Ending::Complete, rounds: 1, list });
    assert_eq!(
        field([0xD5, 0xD6]),
        Verdict { ending: Ending::Twins, rounds: 14, list: Vec::new() }
    );
}
