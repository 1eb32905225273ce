//! Random sessions of every profile with every check after every message.
//! A failure names the profile and seed that repeat it.

use sessions::coverage::Coverage;
use sessions::explain::explain;
use sessions::feed_generator::draw_feed;
use sessions::generator::Generator;
use sessions::message::{split, Message};
use sessions::profile::Profile;
use sessions::random::Random;
use sessions::soak::{check_session, drawn, generate};
use sessions::text::{decode_session, encode_session};

/// Sessions of each profile.
const SESSIONS: u64 = 30;

fn check_profiles(profiles: &[Profile]) -> Coverage {
    let mut coverage = Coverage::default();
    for profile in profiles {
        for seed in 0..SESSIONS {
            if let Err(failure) = check_session(*profile, seed, &mut coverage) {
                panic!("{failure}");
            }
        }
    }
    coverage
}

#[test]
fn all_profiles_hold_every_check_and_show_every_case() {
    let coverage = check_profiles(&Profile::ALL);
    assert_eq!(coverage.sessions, SESSIONS * 17);
    assert_eq!(coverage.missing(), Vec::<String>::new());
}

#[test]
fn equal_seeds_give_equal_sessions_and_others_differ() {
    for profile in Profile::ALL {
        let session = generate(profile, 5, 100);
        assert_eq!(session, generate(profile, 5, 100));
        assert_ne!(session, generate(profile, 6, 100));
    }
}

#[test]
fn sessions_up_to_a_kind_have_none_above_it() {
    let kind = |message: &[u8]| u16::from_le_bytes([message[2], message[3]]);
    for profile in Profile::ALL {
        let session = |last| drawn(Generator::new(profile, 5).up_to(last), 300);
        assert_eq!(session(11), generate(profile, 5, 300));
        for last in [6, 8, 9, 10] {
            let messages = session(last);
            let above = |message: &&Vec<u8>| (last + 1..=11).contains(&kind(message));
            assert_eq!(messages.iter().find(above), None, "{}", profile.name());
        }
    }
}

#[test]
fn equal_numbers_drawn_give_equal_lines() {
    let list = generate(Profile::Mixed, 5, 30);
    let lines = |seed| {
        let feed = draw_feed(&list, &mut Random::new(seed));
        (feed.main, feed.spare)
    };
    assert_eq!(lines(3), lines(3));
    assert_ne!(lines(3), lines(4));
}

#[test]
fn text_of_every_generated_session_reads_back() {
    for profile in Profile::ALL {
        let pieces = generate(profile, 77, 300);
        let list = pieces.concat();
        assert_eq!(split(&list), pieces);
        let text = decode_session(&list);
        assert_eq!(encode_session(&text).unwrap(), list);
        assert_eq!(text.lines().count(), 300);
    }
}

#[test]
fn explanation_of_random_sessions_finds_nothing_wrong() {
    for profile in Profile::ALL {
        let list = generate(profile, 5, 400).concat();
        let told = explain(&list).unwrap();
        let numbered = told.lines().filter(|line| !line.starts_with(' '));
        assert_eq!(numbered.count(), 400);
    }
}

#[test]
fn any_bytes_read_back_from_their_text() {
    let mut seed: u32 = 1;
    for length in 0..400 {
        let bytes: Vec<u8> = (0..length)
            .map(|_| {
                seed = seed.wrapping_mul(1_664_525).wrapping_add(1_013_904_223);
                (seed >> 24) as u8 % 23
            })
            .collect();
        let text = decode_session(&bytes);
        assert_eq!(encode_session(&text).unwrap(), bytes);
    }
    assert_eq!(Message::decode(&[]), Message::Raw(Vec::new()));
}
