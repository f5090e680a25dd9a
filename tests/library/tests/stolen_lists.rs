//! A `StolenList` of the crate beside the exported calls on a copy of its words, in one random run: every answer, every
//! word, and all that a list tells. The answers are counted, and each that a call can give must come up.

use library::seen::Seen;
use pinorange::{StolenList, MAX_STATION, TABULATION_LENGTH};
use reference::rng::Rng;
use reference::samples::{random_station, random_tabulation};

/// What an out-parameter holds before a call.
const OLD: u32 = 0xDEAD_BEEF;

/// The answers that each call of a list can give, in safe Rust.
const ANSWERS: [(&str, &[u32]); 5] = [
    ("init", &[0, 2]),
    ("open", &[0, 2, 4]),
    ("insert", &[0, 5, 6, 16]),
    ("is_reported", &[0, 5]),
    ("check", &[0]),
];

/// A key, at times a blank one, of so few that they meet again.
fn random_key(rng: &mut Rng, slots: usize) -> u32 {
    rng.below(30 * slots + 20) as u32
}

/// Calls on a list, and the exported ones on words beside it.
fn steps(
    rng: &mut Rng,
    list: &mut StolenList,
    tabulation: &[u16],
    words: &mut [u32],
    seen: &mut Seen,
) {
    for _ in 0..30 {
        let key = random_key(rng, words.len());
        if rng.one_in(3) {
            let mut reported = OLD;
            let answer =
                library::stolen_lookup(tabulation, words, list.station(), key, &mut reported);
            seen.compare("is_reported", list.is_reported(key), answer, reported == 1);
        } else {
            let answer = library::stolen_insert(tabulation, words, list.station(), key);
            seen.compare("insert", list.insert(key), answer, ());
        }
        seen.compare("check", list.check(), 0, ());
        let keys: Vec<u32> = words.iter().copied().filter(|word| *word != 0).collect();
        assert_eq!((list.words(), list.slots()), (&*words, words.len()));
        assert_eq!(list.cards().collect::<Vec<_>>(), keys);
        assert_eq!((list.len(), list.is_empty()), (keys.len(), keys.is_empty()));
        let log = format!("{list:?}");
        let expected = format!(
            "StolenList {{ slots: {}, station: {}, len: {}, .. }}",
            words.len(),
            list.station(),
            keys.len()
        );
        assert_eq!(log, expected, "a log has counts, and no card");
    }
}

#[test]
fn a_list_beside_the_calls() {
    let mut rng = Rng::new(911);
    let mut seen = Seen::default();
    for _ in 0..3_000 {
        let values = rng.pick(&[2, 5, 65_536]);
        let tabulation = random_tabulation(&mut rng, values);
        let tabulation: [u16; TABULATION_LENGTH] =
            tabulation.try_into().expect("a tabulation has one length");
        let length = if rng.one_in(12) { rng.pick(&[0, 1_025]) } else { 1 + rng.below(12) };
        let station = if rng.one_in(12) { MAX_STATION + 1 } else { random_station(&mut rng) };
        let mut words = vec![OLD; length];
        let mut theirs = words.clone();

        // The call itself takes no station; a list has one, and is not laid at one that is none.
        let answer = if station > MAX_STATION { 2 } else { library::stolen_init(&mut theirs) };
        let laid = StolenList::init(&tabulation, &mut words, station);
        seen.compare("init", laid.as_ref().map(|_| ()).map_err(|refusal| *refusal), answer, ());
        let Ok(mut list) = laid else {
            assert_eq!(words, theirs, "a refused init");
            continue;
        };
        steps(&mut rng, &mut list, &tabulation, &mut theirs, &mut seen);

        // The words are opened again, at times changed, at another station, or a word too many.
        if rng.one_in(3) {
            let place = rng.below(length);
            words[place] = rng.pick(&[0, 7, words[place] ^ 1, OLD]);
        }
        let station = if rng.one_in(4) { random_station(&mut rng) } else { station };
        let station = if rng.one_in(12) { MAX_STATION + 1 } else { station };
        if rng.one_in(12) {
            words.resize(1_025, 0);
        }
        let mut theirs = words.clone();
        let answer = match library::stolen_insert(&tabulation, &mut theirs, station, 3) {
            5 => 0,
            other => other,
        };
        assert_eq!(words, theirs, "an insert of no key changes nothing");
        let opened = StolenList::open(&tabulation, &mut words, station);
        seen.compare("open", opened.as_ref().map(|_| ()).map_err(|refusal| *refusal), answer, ());
        match opened {
            Ok(mut list) => steps(&mut rng, &mut list, &tabulation, &mut theirs, &mut seen),
            Err(_) => assert_eq!(words, theirs, "a refused open"),
        }
    }
    seen.report(&ANSWERS);
}
