//! What a log covers, counted by walking it with a fresh game (01, The game; Log; 02, S-6 to S-8, S-10 and S-11).

use crate::codec::{length, pack, read};
use crate::cover::Cover;
use crate::entry::Entry;
use crate::game::Game;
use crate::log::{entries, letter};
use crate::multi_ron;
use crate::pao::{self, DRAGONS, WINDS};
use crate::position::{is_ready, pao_feeder, Position};
use crate::record::{Hand, RON};
use crate::score::score;

const SEATS: [&str; 2] = ["child", "dealer"];

/// The names of all counts and the labels that must be reached.
fn expected() -> Cover {
    let mut cover = Cover::default();
    cover.expect("accepted", &["R", "W", "D", "C", "M", "P", "X"]);
    cover.expect("refused", &["R", "W", "D", "C", "M", "P", "X"]);
    cover.expect("refusal", &["2", "3", "4", "5", "6", "7", "8", "9", "10", "11", "14", "17", "18", "20", "21"]);
    cover.expect("refused after the end", &["R 8", "R 9", "W 9", "D 9", "C 8", "C 9", "M 9", "P 9", "X 2"]);
    cover.expect("refusal 11", &["field without riichi", "riichi without field"]);
    cover.expect("riichi with", &["1,000", "more"]);
    cover.expect("refusal 10 with", &["1,000 or more", "under 1,000"]);
    cover.expect("refusal 21 with", &["0 to 999", "under 0"]);
    cover.expect("11 since a refusal 21", &["W", "M"]);
    cover.expect("win", &["tsumo dealer", "tsumo child", "ron dealer", "ron child"]);
    cover.expect("win with sticks", &["none", "this hand's", "older"]);
    cover.expect("win with counters", &["none by tsumo", "none by ron", "some by tsumo", "some by ron"]);
    cover.expect_numbers("win riichi field", 0, 2);
    cover.expect_numbers("win situation", 0, 4);
    cover.expect_numbers("win melds", 0, 4);
    cover.expect("win meld kind", &["chi", "pon", "open kan", "closed kan"]);
    cover.expect("win h", &["1-4", "5", "6-7", "8-10", "11 up", "yakuman"]);
    cover.expect_numbers("win yaku", 1, 36);
    cover.expect_numbers("draw ready", 0, 4);
    cover.expect("draw with sticks", &["none", "this hand's", "older"]);
    cover.expect_numbers("draw declared, not ready", 1, 4);
    cover.expect(
        "draw of a chombo",
        &["of the dealer", "not of the dealer", "a declared seat ready", "a ready seat not declared", "older sticks", "counters"],
    );
    cover.expect_numbers("chombo declared", 0, 4);
    cover.expect("chombo by", &["dealer", "child", "declared seat", "other seat"]);
    cover.expect("chombo with older sticks", &["yes"]);
    cover.expect_numbers("multiple ron of", 1, 3);
    cover.expect(
        "multiple ron",
        &[
            "dealer wins",
            "dealer does not win",
            "sticks",
            "counters",
            "a declared winner",
            "records of two lengths",
            "first winner not first",
        ],
    );
    cover.expect("multiple ron refused", &["2", "3", "4", "5", "6", "7", "9", "11", "17"]);
    cover.expect("multiple ron refused with 17", &multi_ron::FAULTS);
    cover.expect("multiple ron by pao", &["from the feeder", "from another", "the feeder wins too"]);
    cover.expect("pao", &["28", "29", "a second holder of a yaku", "both yaku of a holder", "a seat declared"]);
    cover.expect("refusal 18", &["holder is the feeder", "named with the same feeder", "named with another feeder"]);
    cover.expect("win by pao of 28", &["tsumo", "ron from the feeder", "ron from another"]);
    cover.expect("win by pao of 29", &["tsumo", "ron from the feeder", "ron from another"]);
    cover.expect("win by pao", &["dealer", "child", "counters", "sticks"]);
    cover.expect("riichi since a pao", &["yes"]);
    cover.expect("win without pao", &["no such yaku", "three winds and a pair", "the yaku of another holder", "the other yaku", "lapsed"]);
    cover.expect("feeders lapse by", &["W by pao", "W", "D", "D of a chombo", "C", "M"]);
    cover.expect("correction of", &["W", "D", "D of a chombo", "C", "M", "a correction"]);
    cover.expect("correction by", &["W", "W by pao", "D", "D of a chombo", "C", "M"]);
    cover.expect("correction", &["at once", "after a refused booking", "after a refused correction", "of the end"]);
    cover.expect("correction gives back", &["declared seats", "feeders", "counters", "sticks", "the deal"]);
    cover.expect("correction refused", &["2", "3", "4", "5", "6", "7", "8", "11", "17", "20"]);
    cover.expect("refusal 20", &["nothing booked", "since R", "since P"]);
    cover.watch("play goes on after the end");
    cover.expect("deal repeats by", &["W", "D", "C", "M"]);
    cover.expect("deal passes by", &["W", "D", "M"]);
    cover.expect("wind turns South", &["yes"]);
    cover.expect("over", &["yes"]);
    cover.expect("sticks left at the end", &["yes"]);
    cover.expect("score under 0", &["yes"]);
    cover
}

/// Where the sticks of a position come from.
fn sticks(position: &Position) -> &'static str {
    let declared = position.declared.iter().filter(|&&seat| seat).count() as u32;
    match position.sticks {
        0 => "none",
        n if n == declared => "this hand's",
        _ => "older",
    }
}

/// Counts what a pao names besides another (02, S-8).
fn note_pao(cover: &mut Cover, before: &Position, holder: u8, yaku: u8) {
    let named = |seat: u8, yaku: u8| before.feeder(seat, yaku).is_some();
    cover.add("pao", yaku);
    cover.add_if((0..4).any(|seat| named(seat, yaku)), "pao", "a second holder of a yaku");
    cover.add_if(named(holder, DRAGONS + WINDS - yaku), "pao", "both yaku of a holder");
    cover.add_if(before.declared.contains(&true), "pao", "a seat declared");
}

/// Counts an accepted win by who pays it by pao; `lapsed` are the yaku of the winner that were named in earlier hands (02, S-8).
fn note_pao_win(cover: &mut Cover, before: &Position, hand: &Hand, lapsed: &[(u8, u8)]) {
    let yaku = pao::yaku(hand, before.dealer, before.wind);
    if let (Some(yaku), Some(feeder)) = (yaku, pao_feeder(before, hand)) {
        let how = match hand.how {
            RON if hand.discarder == feeder => "ron from the feeder",
            RON => "ron from another",
            _ => "tsumo",
        };
        cover.add(if yaku == DRAGONS { "win by pao of 28" } else { "win by pao of 29" }, how);
        cover.add("win by pao", SEATS[(hand.winner == before.dealer) as usize]);
        cover.add_if(before.counter > 0, "win by pao", "counters");
        cover.add_if(before.sticks > 0, "win by pao", "sticks");
        return;
    }
    let named = |yaku: u8| before.feeder(hand.winner, yaku).is_some();
    let winds = score(&pack(hand), before.dealer, before.wind).yaku >> WINDS & 1 == 1;
    cover.add_if(yaku.is_none() && (named(DRAGONS) || named(WINDS)), "win without pao", "no such yaku");
    cover.add_if(yaku.is_none() && winds && named(WINDS), "win without pao", "three winds and a pair");
    if let Some(yaku) = yaku {
        cover.add_if((0..4).any(|seat| before.feeder(seat, yaku).is_some()), "win without pao", "the yaku of another holder");
        cover.add_if(named(DRAGONS + WINDS - yaku), "win without pao", "the other yaku");
        cover.add_if(lapsed.contains(&(hand.winner, yaku)), "win without pao", "lapsed");
    }
}

/// Counts an accepted multiple ron (02, S-6).
fn note_multi_ron(cover: &mut Cover, before: &Position, hands: &[Hand]) {
    let (from, wins) = (hands[0].discarder, |seat: u8| hands.iter().any(|hand| hand.winner == seat));
    cover.add("multiple ron of", hands.len());
    cover.add("multiple ron", if wins(before.dealer) { "dealer wins" } else { "dealer does not win" });
    cover.add_if(before.sticks > 0, "multiple ron", "sticks");
    cover.add_if(before.counter > 0, "multiple ron", "counters");
    cover.add_if(hands.iter().any(|hand| hand.riichi > 0), "multiple ron", "a declared winner");
    cover.add_if(hands.iter().any(|hand| length(hand.m) != length(hands[0].m)), "multiple ron", "records of two lengths");
    cover.add_if(multi_ron::first_winner(hands) != hands[0].winner, "multiple ron", "first winner not first");
    for feeder in hands.iter().filter_map(|hand| pao_feeder(before, hand)) {
        cover.add("multiple ron by pao", if feeder == from { "from the feeder" } else { "from another" });
        cover.add_if(wins(feeder), "multiple ron by pao", "the feeder wins too");
    }
}

/// Counts what lets feeders lapse (02, S-8).
fn note_lapse(cover: &mut Cover, before: &Position, after: &Position, booking: &Entry) {
    cover.add_if(before.feeders != [0; 8] && after.feeders == [0; 8], "feeders lapse by", named(before, booking));
}

/// The letter of a booking in a position, with what it is besides: a win paid by pao, a draw that is a chombo (02, S-7 and S-8).
fn named(before: &Position, booking: &Entry) -> String {
    match booking {
        Entry::Win(record) if read(record).is_ok_and(|hand| pao_feeder(before, &hand).is_some()) => "W by pao".into(),
        Entry::Draw(bits) if !before.unready(*bits).is_empty() => "D of a chombo".into(),
        _ => letter(booking).to_string(),
    }
}

/// What has been booked since the last result: whether that was a correction, and the last refused entry (02, S-10).
#[derive(Default)]
struct Since {
    corrected: bool,
    refused: Option<char>,
}

/// Counts an accepted correction: what it supersedes, by what, and what comes back (02, S-10).
fn note_correction(cover: &mut Cover, before: &Game, after: &Position, new: &Entry, since: &Since) {
    let (now, earlier) = (before.now(), before.earlier().expect("an earlier position"));
    let old = before.last().expect("a superseded booking");
    let old = named(&earlier, old).replace("W by pao", "W");
    cover.add("correction of", if since.corrected { "a correction".into() } else { old });
    cover.add("correction by", named(&earlier, new));
    cover.add(
        "correction",
        match since.refused {
            None => "at once",
            Some('X') => "after a refused correction",
            Some(_) => "after a refused booking",
        },
    );
    cover.add_if(now.over, "correction", "of the end");
    cover.add_if(now.over && !after.over, "play goes on after the end", "yes");
    cover.add_if(earlier.declared.contains(&true), "correction gives back", "declared seats");
    cover.add_if(earlier.feeders != [0; 8], "correction gives back", "feeders");
    cover.add_if(earlier.counter > now.counter, "correction gives back", "counters");
    cover.add_if(earlier.sticks > now.sticks, "correction gives back", "sticks");
    cover.add_if((earlier.dealer, earlier.wind) != (now.dealer, now.wind), "correction gives back", "the deal");
}

/// Counts a refused correction (02, S-10).
fn note_refused_correction(cover: &mut Cover, before: &Game, refusal: u8) {
    cover.add("correction refused", refusal);
    let since = before.last().map_or("nothing booked".into(), |last| format!("since {}", letter(last)));
    cover.add_if(refusal == 20, "refusal 20", since);
}

/// Counts an accepted win.
fn note_win(cover: &mut Cover, before: &Position, hand: &Hand, record: &[u8]) {
    let scored = score(record, before.dealer, before.wind);
    let how = if hand.how == RON { "ron" } else { "tsumo" };
    cover.add("win", format!("{how} {}", SEATS[(hand.winner == before.dealer) as usize]));
    cover.add("win with sticks", sticks(before));
    cover.add("win with counters", format!("{} by {how}", if before.counter == 0 { "none" } else { "some" }));
    cover.add("win riichi field", hand.riichi);
    cover.add("win situation", hand.situation);
    cover.add("win melds", hand.m);
    for meld in hand.melds() {
        cover.add("win meld kind", ["chi", "pon", "open kan", "closed kan"][meld.kind as usize]);
    }
    cover.add(
        "win h",
        match scored.h {
            0 => "yakuman",
            1..=4 => "1-4",
            5 => "5",
            6..=7 => "6-7",
            8..=10 => "8-10",
            _ => "11 up",
        },
    );
    for n in (1..=36).filter(|n| scored.yaku >> n & 1 == 1) {
        cover.add("win yaku", n);
    }
}

/// Counts an accepted draw, one in which a declared seat is not ready by itself (02, S-7).
fn note_draw(cover: &mut Cover, before: &Position, bits: u8) {
    let unready = before.unready(bits);
    if !unready.is_empty() {
        let ready = |declared: bool| (0..4).any(|seat| is_ready(bits, seat) && before.declared[seat] == declared);
        cover.add("draw declared, not ready", unready.len());
        let dealer = unready.contains(&(before.dealer as usize));
        cover.add("draw of a chombo", if dealer { "of the dealer" } else { "not of the dealer" });
        cover.add_if(ready(true), "draw of a chombo", "a declared seat ready");
        cover.add_if(ready(false), "draw of a chombo", "a ready seat not declared");
        cover.add_if(sticks(before) == "older", "draw of a chombo", "older sticks");
        cover.add_if(before.counter > 0, "draw of a chombo", "counters");
        return;
    }
    cover.add("draw ready", (0..4).filter(|&seat| is_ready(bits, seat)).count());
    cover.add("draw with sticks", sticks(before));
}

/// Counts an accepted chombo.
fn note_chombo(cover: &mut Cover, before: &Position, seat: u8) {
    let declared = before.declared.iter().filter(|&&seat| seat).count();
    cover.add("chombo declared", declared);
    cover.add("chombo by", SEATS[(seat == before.dealer) as usize]);
    let own = before.declared[seat as usize];
    cover.add_if(declared > 0, "chombo by", if own { "declared seat" } else { "other seat" });
    cover.add_if(before.sticks > declared as u32, "chombo with older sticks", "yes");
}

/// Counts what an accepted booking does to the deal.
fn note_deal(cover: &mut Cover, before: &Position, after: &Position, letter: char) {
    let south_3 = (before.dealer, before.wind) == (3, 1);
    let stays = (before.dealer, before.wind) == (after.dealer, after.wind);
    let ends = south_3 && after.over && after.hands < 200;
    let section = if stays && !ends { "deal repeats by" } else { "deal passes by" };
    cover.add_if(after.hands > before.hands, section, letter);
    cover.add_if(before.wind < after.wind, "wind turns South", "yes");
    cover.add_if(after.over, "over", "yes");
    cover.add_if(after.over && after.sticks > 0, "sticks left at the end", "yes");
    cover.add_if(after.scores.iter().any(|&score| score < 0), "score under 0", "yes");
}

/// The winners that a win or a multiple ron marks riichi for.
fn marked(entry: &Entry) -> Vec<u8> {
    let hands = match entry {
        Entry::Win(record) => read(record).map(|hand| vec![hand]),
        Entry::MultiRon { number, records } => multi_ron::hands(*number, records),
        _ => return vec![],
    };
    hands.map_or(vec![], |hands| hands.iter().filter(|hand| hand.riichi > 0).map(|hand| hand.winner).collect())
}

/// Counts a refused entry; `away` are the seats whose riichi was refused with 21 in this hand (02, S-11).
fn note_refused(cover: &mut Cover, before: &Position, entry: &Entry, refusal: u8, away: &[u8]) {
    let letter = letter(entry);
    cover.add("refused", letter);
    cover.add("refusal", refusal);
    cover.add_if(before.over, "refused after the end", format!("{letter} {refusal}"));
    match (entry, refusal) {
        (Entry::Riichi(seat), 10) => {
            cover.add("refusal 10 with", if before.affords_riichi(*seat) { "1,000 or more" } else { "under 1,000" })
        }
        (Entry::Riichi(seat), 21) => cover.add("refusal 21 with", if before.scores[*seat as usize] < 0 { "under 0" } else { "0 to 999" }),
        (_, 11) => cover.add_if(marked(entry).iter().any(|seat| away.contains(seat)), "11 since a refusal 21", letter),
        _ => {}
    }
    if let (Entry::Win(record), 11) = (entry, refusal) {
        let field = read(record).is_ok_and(|hand| hand.riichi != 0);
        cover.add("refusal 11", if field { "field without riichi" } else { "riichi without field" });
    }
    if let Entry::MultiRon { number, records } = entry {
        cover.add("multiple ron refused", refusal);
        let faults = multi_ron::hands(*number, records).map_or([false; 6], |hands| multi_ron::faults(&hands));
        (0..6)
            .filter(|&fault| refusal == 17 && faults[fault])
            .for_each(|fault| cover.add("multiple ron refused with 17", multi_ron::FAULTS[fault]));
    }
    if let (Entry::Pao { holder, feeder, yaku }, 18) = (entry, refusal) {
        cover.add(
            "refusal 18",
            match before.feeder(*holder, *yaku) {
                _ if holder == feeder => "holder is the feeder",
                named if named == Some(*feeder) => "named with the same feeder",
                _ => "named with another feeder",
            },
        );
    }
}

/// Counts an accepted booking; `lapsed` are the feeders of the hand before (02, S-8).
fn note_accepted(cover: &mut Cover, before: &Position, after: &Position, booking: &Entry, lapsed: &[(u8, u8)]) {
    match booking {
        Entry::Riichi(seat) => {
            cover.add("riichi with", if before.scores[*seat as usize] == 1000 { "1,000" } else { "more" });
            cover.add_if(before.feeders != [0; 8], "riichi since a pao", "yes");
        }
        Entry::Win(record) => {
            let hand = read(record).expect("an accepted win");
            note_win(cover, before, &hand, record);
            note_pao_win(cover, before, &hand, lapsed);
        }
        Entry::Draw(bits) => note_draw(cover, before, *bits),
        Entry::Chombo(seat) => note_chombo(cover, before, *seat),
        Entry::MultiRon { number, records } => {
            note_multi_ron(cover, before, &multi_ron::hands(*number, records).expect("an accepted multiple ron"))
        }
        Entry::Pao { holder, yaku, .. } => note_pao(cover, before, *holder, *yaku),
        Entry::Correction(_) => {}
    }
    note_lapse(cover, before, after, booking);
    note_deal(cover, before, after, letter(booking));
}

/// The entries, finished hands and counts of a log.
pub fn survey(log: &[u8]) -> (usize, u8, Cover) {
    let mut cover = expected();
    let mut game = Game::fresh();
    let (list, bad) = entries(log);
    let mut lapsed: Vec<(u8, u8)> = Vec::new();
    let mut away: Vec<u8> = Vec::new();
    let mut since = Since::default();
    for entry in &list {
        let before = game.clone();
        let refusal = game.book(entry);
        if refusal != 0 {
            note_refused(&mut cover, before.now(), entry, refusal, &away);
            match entry {
                Entry::Riichi(seat) if refusal == 21 => away.push(*seat),
                Entry::Correction(_) => note_refused_correction(&mut cover, &before, refusal),
                _ => {}
            }
            since.refused = Some(letter(entry));
            continue;
        }
        cover.add("accepted", letter(entry));
        // The position that an accepted correction is booked in is the earlier one.
        let (position, booking) = match entry {
            Entry::Correction(new) => {
                note_correction(&mut cover, &before, game.now(), new, &since);
                (before.earlier().expect("an earlier position"), new.as_ref())
            }
            _ => (*before.now(), entry),
        };
        note_accepted(&mut cover, &position, game.now(), booking, &lapsed);
        if booking.finishes() {
            away.clear();
            let named = (0..4).flat_map(|seat| [(seat, DRAGONS), (seat, WINDS)]);
            lapsed = named.filter(|&(seat, yaku)| position.feeder(seat, yaku).is_some()).collect();
        }
        since = Since { corrected: booking != entry, refused: None };
    }
    cover.add_if(bad != 0, "refusal", bad);
    (list.len(), game.now().hands, cover)
}
