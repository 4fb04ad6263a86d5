//! Where a marker's name leads: the latest record of a name, names byte for byte, and which rule sets are refused.

use tivembo::{Act, HostMarker, Marker, Mode, Outcome, Part, Refusal, Rule, RuleSet, Transaction};

/// So many rules with one action, `skipAfter:END`, and these markers.
fn rules(count: usize, markers: &[(&[u8], u64)]) -> RuleSet {
    let mut rules = RuleSet::builder();
    for id in 0..count {
        rules.rule(Some(id as u64), false, &[Act::SkipAfter(b"END")]);
    }
    for (name, position) in markers {
        rules.marker_at(name, *position);
    }
    rules.build_as_given()
}

#[test]
fn the_latest_marker_of_a_name_decides() {
    let rules = rules(5, &[(b"END", 4), (b"", 1), (b"END", 2), (b"ENDE", 3)]);
    assert_eq!(rules.marker_position(b"END"), Ok(Some(2)));
    assert_eq!(rules.marker_position(b"ENDE"), Ok(Some(3)));
    assert_eq!(rules.marker_position(b""), Ok(Some(1)));
}

#[test]
fn names_compare_byte_for_byte() {
    let rules = rules(3, &[(b"END", 2)]);
    for name in [&b"end"[..], b"EN", b"ENDE", b" END", b"", b"\xC9ND"] {
        assert_eq!(rules.marker_position(name), Ok(None), "{name:?}");
    }
    assert_eq!(RuleSet::default().marker_position(b""), Ok(None));
    let long = vec![b'E'; 70_000];
    assert_eq!(rules.marker_position(&long), Ok(None));
}

/// With as many markers as a rule set may have, each is found.
#[test]
fn every_marker_is_found() {
    let names: Vec<String> = (0..256).map(|at| format!("M{at}")).collect();
    let positions = (0..).step_by(2);
    let markers: Vec<(&[u8], u64)> = names
        .iter()
        .map(|name| name.as_bytes())
        .zip(positions)
        .collect();
    let rules = rules(512, &markers);
    for (name, position) in &markers {
        assert_eq!(rules.marker_position(name), Ok(Some(*position)));
    }
}

/// Random markers of a few names, asked for each name, beside a search in Rust.
#[test]
fn beside_a_search_in_rust() {
    let names = [&b""[..], b"A", b"AB", b"BA", b"a"];
    let mut state = 1_u64;
    let mut below = |count: u64| {
        state = state
            .wrapping_mul(6_364_136_223_846_793_005)
            .wrapping_add(1_442_695_040_888_963_407);
        (state >> 33) % count
    };
    for _ in 0..5_000 {
        let count = below(9);
        let drawn = (0..count).map(|_| (names[below(5) as usize], below(4)));
        let markers: Vec<(&[u8], u64)> = drawn.collect();
        let rules = rules(3, &markers);
        for name in names {
            let latest = markers.iter().rev().find(|marker| marker.0 == name);
            let expected = latest.map(|marker| marker.1);
            assert_eq!(rules.marker_position(name), Ok(expected), "{markers:?}");
        }
    }
}

/// A phase call that jumps goes to the position that the question gives.
#[test]
fn the_phase_call_goes_there() {
    let rules = rules(6, &[(b"END", 2), (b"END", 4), (b"END ", 3)]);
    let position = rules.marker_position(b"END").unwrap().unwrap();
    let outcomes = [Outcome::Matched; 6];
    let mut transaction = Transaction::new();
    let ran = transaction.run_phase(&rules, 1, Mode::On, 403, &outcomes);
    let visits: Vec<usize> = ran.unwrap().visits().map(|(index, _)| index).collect();
    assert_eq!(visits[1] as u64, position);
}

#[test]
fn wrong_rule_sets_are_refused() {
    let position = |rules: &RuleSet| rules.marker_position(b"END");
    let many: Vec<(&[u8], u64)> = vec![(b"END", 0); 257];
    assert_eq!(position(&rules(1, &many)), Err(Refusal::TooLarge));
    assert_eq!(position(&rules(1, &many[..256])), Ok(Some(0)));
    assert_eq!(position(&rules(513, &[])), Err(Refusal::TooLarge));
    let long = vec![b'a'; 65_537];
    assert_eq!(position(&rules(0, &[(&long, 0)])), Err(Refusal::TooLarge));
    assert_eq!(position(&rules(0, &[(&long[1..], 0)])), Ok(None));
    assert_eq!(position(&rules(1, &[(b"END", 2)])), Err(Refusal::BadRecord));
    assert_eq!(position(&rules(1, &[(b"END", 1)])), Ok(Some(1)));
    assert_eq!(position(&rules(1, &[(b"\x80", 1)])), Err(Refusal::HighByte));

    // A name outside the text comes before a byte of 80 or more; sums that would wrap are outside.
    for (start, len) in [(3, 1), (0, 4), (u64::MAX, 1), (1, u64::MAX)] {
        let marker = Marker {
            name: Part { start, len },
            position: 0,
        };
        let rules = RuleSet::from_records(vec![], vec![], vec![marker], b"EN\xFF".to_vec());
        assert_eq!(position(&rules), Err(Refusal::BadRecord), "{start} {len}");
    }
}

/// A refused question has neither a marker nor a position; the rules themselves are not looked at.
#[test]
fn on_plain_numbers() {
    let marker = Marker {
        name: Part { start: 1, len: 2 },
        position: 7,
    };
    let asked = |rules, text| tivembo::raw::marker_position(&[marker], rules, text, b"bc");
    let found = |answer, present, position| HostMarker {
        answer,
        present,
        position,
    };
    assert_eq!(asked(7, b"abc"), found(0, 1, 7));
    assert_eq!(asked(7, b"acb"), found(0, 0, 0));
    assert_eq!(asked(6, b"abc"), found(5, 0, 0));
    assert_eq!(asked(513, b"abc"), found(2, 0, 0));
    assert_eq!(asked(7, b"\x80bc"), found(6, 0, 0));
    let unknown = Rule {
        present: 2,
        ..Rule::default()
    };
    let rules = RuleSet::from_records(vec![unknown; 7], vec![], vec![marker], b"abc".to_vec());
    assert_eq!(rules.marker_position(b"bc"), Ok(Some(7)));
}
