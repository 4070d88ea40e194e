//! The writers of an unfinished hand: round trips, refusals in order, and a record without its winning tile.

use other_scorer::codec;
use other_scorer::deal::{drawn, near, themed};
use other_scorer::record::{Meld, CHI, CLOSED_KAN};
use other_scorer::rng::Rng;
use other_scorer::unfinished::{from_record, length, pack, read, write, Unfinished};

/// The hand of docs/RECORDS.md: chi 234m, 567m 22456p 67s.
const WORKED: [u8; 9] = [0x20, 0x22, 0x0a, 0x31, 0x45, 0x18, 0x69, 0xcb, 0xb0];

/// Random sound hands with 0 to 4 melds.
fn sound(rng: &mut Rng) -> Unfinished {
    let whole = rng.pick(&[themed, near, drawn])(rng);
    Unfinished { m: whole.m, melds: whole.melds, concealed: whole.concealed }
}

#[test]
fn round_trips() {
    let mut rng = Rng::new(38);
    for _ in 0..2000 {
        let hand = sound(&mut rng);
        let mut buffer = [0x5a; 16];
        let len = write(&hand, &mut buffer).expect("a sound hand");
        assert_eq!((len, read(&buffer[..len])), (length(hand.m), Ok(hand)));
        assert!(buffer[len..].iter().all(|&byte| byte == 0x5a));
        assert_eq!(&buffer[..len], pack(&hand));
        for short in 0..len {
            let mut buffer = vec![0x5a; short];
            assert_eq!((write(&hand, &mut buffer), buffer), (Err(13), vec![0x5a; short]));
        }
    }
    let mut buffer = [0; 9];
    let hand = read(&WORKED).expect("sound");
    assert_eq!((write(&hand, &mut buffer), buffer), (Ok(9), WORKED));
}

#[test]
fn refusals_in_order() {
    let sound = read(&WORKED).expect("sound");
    let meld = |kind, tile| Meld { kind, tile };
    let with = |alter: &dyn Fn(&mut Unfinished)| {
        let mut hand = sound;
        alter(&mut hand);
        [0, 8, 16].map(|length| write(&hand, &mut vec![0; length]))
    };
    assert_eq!(with(&|_| {}), [Err(13), Err(13), Ok(9)]);
    assert_eq!(with(&|hand| hand.m = 5), [Err(2); 3]);
    assert_eq!(with(&|hand| hand.melds[1] = meld(0, 1)), [Err(2); 3]);
    assert_eq!(with(&|hand| hand.concealed[10] = 1), [Err(2); 3]);
    assert_eq!(with(&|hand| hand.concealed[9] = 34), [Err(2); 3]);
    assert_eq!(with(&|hand| hand.concealed[9] = 64 + 24), [Err(2); 3]);
    assert_eq!(with(&|hand| hand.melds[0] = meld(CHI, 7)), [Err(2); 3]);
    assert_eq!(with(&|hand| hand.concealed[0] = 33), [Err(3); 3]);
    assert_eq!(with(&|hand| hand.melds[0] = meld(CLOSED_KAN, 10)), [Err(4); 3]);
}

#[test]
fn records_without_the_winning_tile() {
    let mut rng = Rng::new(7);
    for _ in 0..2000 {
        let whole = rng.pick(&[themed, near, drawn])(&mut rng);
        let record = codec::pack(&whole);
        let hand = Unfinished { m: whole.m, melds: whole.melds, concealed: whole.concealed };
        let (mut buffer, mut wanted) = ([0x5a; 16], [0x5a; 16]);
        let written = from_record(&record, &mut buffer);
        match codec::read(&record) {
            Ok(_) => assert_eq!((written, buffer), (write(&hand, &mut wanted), wanted)),
            Err(refusal) => assert_eq!((written, buffer), (Err(refusal), [0x5a; 16])),
        }
    }
    assert_eq!(from_record(&[], &mut []), Err(1));
}
