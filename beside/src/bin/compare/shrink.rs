//! Makes a case that differs as small as can be found, one edit at a time.

use beside::case::{kind, outcome, Call, Case};
use beside::model::trimmed;
use case_format::{Entry, Mode, Stop};
use oracle::Run;
use tivembo::{Action, Part};

/// The at-th smaller case of one kind, none after the last.
type Edit = fn(&Case, usize) -> Option<Case>;

/// Each makes less of something, so that no two undo each other.
const EDITS: [Edit; 21] = [
    as_read,
    without_call,
    without_rules,
    without_rule,
    without_action,
    without_kind,
    without_marker,
    without_range,
    without_entry,
    without_mode,
    without_link,
    without_member,
    without_id,
    without_outcome,
    without_text,
    without_part,
    without_length,
    without_blanks,
    without_name,
    without_disorder,
    without_start,
];

/// A case as small as edits make it that still differs.
pub fn shrunk(mut case: Case, differs: impl Fn(&Case) -> bool) -> Case {
    loop {
        let mut is_smaller = false;
        for edit in EDITS {
            let mut at = 0;
            while let Some(smaller) = edit(&case, at) {
                match differs(&smaller) {
                    true => (case, is_smaller) = (smaller, true),
                    false => at += 1,
                }
            }
        }
        if !is_smaller {
            return case;
        }
    }
}

/// Edits the at-th of the things that all calls have, by call and index.
fn edited<I: Iterator<Item = usize>>(
    case: &Case,
    at: usize,
    things: impl Fn(&Call) -> I,
    edit: impl Fn(&mut Call, usize),
) -> Option<Case> {
    let calls = case.calls.iter().enumerate();
    let mut all = calls.flat_map(|(call, it)| {
        things(it)
            .map(move |thing| (call, thing))
            .collect::<Vec<_>>()
    });
    let (call, thing) = all.nth(at)?;
    let mut case = case.clone();
    edit(&mut case.calls[call], thing);
    Some(case)
}

/// The indexes at which a list has what is to be edited.
fn places<T>(list: &[T], has: impl Fn(&T) -> bool) -> std::vec::IntoIter<usize> {
    let places: Vec<usize> = (0..list.len()).filter(|at| has(&list[*at])).collect();
    places.into_iter()
}

/// With the records that are read from what is written of the case.
fn as_read(case: &Case, at: usize) -> Option<Case> {
    let read = case.as_read();
    (at == 0 && read != *case).then_some(read)
}

fn without_call(case: &Case, at: usize) -> Option<Case> {
    let mut case = case.clone();
    (at < case.calls.len()).then(|| case.calls.remove(at))?;
    Some(case)
}

fn remove_rules(call: &mut Call, from: usize, count: usize) {
    call.rules.drain(from..from + count);
    call.outcomes.drain(from..from + count);
    for marker in &mut call.markers {
        let before = (marker.position as usize).saturating_sub(from).min(count);
        marker.position -= before as u64;
    }
}

/// Without an eighth of the rules of a call.
fn without_rules(case: &Case, at: usize) -> Option<Case> {
    let things = |call: &Call| {
        (0..call.rules.len() / (call.rules.len() / 8).max(1)).filter({
            let is_large = call.rules.len() >= 16;
            move |_| is_large
        })
    };
    edited(case, at, things, |call, eighth| {
        let count = call.rules.len() / 8;
        remove_rules(call, eighth * count, count);
    })
}

fn without_rule(case: &Case, at: usize) -> Option<Case> {
    let things = |call: &Call| 0..call.rules.len();
    edited(case, at, things, |call, rule| remove_rules(call, rule, 1))
}

fn without_action(case: &Case, at: usize) -> Option<Case> {
    let things = |call: &Call| 0..call.actions.len();
    edited(case, at, things, |call, action| {
        for index in 0..call.rules.len() {
            let has = call.places_of(index).contains(&action);
            let rule = &mut call.rules[index];
            rule.count -= u64::from(has);
            rule.first -= u64::from(rule.first as usize > action);
        }
        call.actions.remove(action);
    })
}

/// The kinds that an action is tried as: what stops is tried as pass and deny, metadata as msg. So differences of one cause
/// come to the same case more often.
fn plainer(action: &Action) -> &'static [u64] {
    match action.kind {
        kind::DENY => &[kind::PASS],
        kind::BLOCK | kind::ALLOW | kind::REDIRECT | kind::DROP => &[kind::PASS, kind::DENY],
        kind::ID | kind::LOGDATA..=kind::ACCURACY => &[kind::MSG],
        _ => &[],
    }
}

fn without_kind(case: &Case, at: usize) -> Option<Case> {
    // Each action once for each of the two kinds that it can at most be tried as.
    let things = |call: &Call| {
        let tried = |at: &usize| at % 2 < plainer(&call.actions[at / 2]).len();
        let tried: Vec<usize> = (0..2 * call.actions.len()).filter(tried).collect();
        tried.into_iter()
    };
    edited(case, at, things, |call, at| {
        let action = &mut call.actions[at / 2];
        action.kind = plainer(action)[at % 2];
    })
}

fn without_marker(case: &Case, at: usize) -> Option<Case> {
    let things = |call: &Call| 0..call.markers.len();
    edited(case, at, things, |call, marker| {
        call.markers.remove(marker);
    })
}

fn without_range(case: &Case, at: usize) -> Option<Case> {
    let mut case = case.clone();
    (at < case.entry.ranges.len()).then(|| case.entry.ranges.remove(at))?;
    Some(case)
}

/// Without one of the other things that a transaction holds at first.
fn without_entry(case: &Case, at: usize) -> Option<Case> {
    let mut smaller = case.clone();
    let (entry, is_set) = (&mut smaller.entry, &case.entry);
    let mut edits = Vec::new();
    edits.extend(is_set.mode.map(|_| 0));
    edits.extend(is_set.body_access.map(|_| 1));
    edits.extend(is_set.body_processor.map(|_| 2));
    edits.extend(is_set.allowed.then_some(3));
    edits.extend(is_set.stopped.then_some(4));
    edits.extend((case.status != 403).then_some(5));
    match edits.get(at)? {
        0 => entry.mode = None,
        1 => entry.body_access = None,
        2 => entry.body_processor = None,
        3 => entry.allowed = false,
        4 => entry.stopped = false,
        _ => smaller.status = 403,
    }
    Some(smaller)
}

/// With nothing set, and the rule set's mode On or what was set.
fn without_mode(case: &Case, at: usize) -> Option<Case> {
    let on = (case.mode != Mode::On).then_some(Mode::On);
    let mode = on.into_iter().chain(case.entry.mode).nth(at)?;
    let mut smaller = case.clone();
    (smaller.mode, smaller.entry.mode) = (mode, None);
    Some(smaller)
}

fn without_link(case: &Case, at: usize) -> Option<Case> {
    let things = |call: &Call| places(&call.rules, |rule| rule.link == 1);
    edited(case, at, things, |call, rule| call.rules[rule].link = 0)
}

/// With a link and the rule after it as one rule, which has the actions of both.
fn without_member(case: &Case, at: usize) -> Option<Case> {
    let things = |call: &Call| {
        let is_joined = |later: &usize| {
            let (link, next) = (call.places_of(later - 1), call.places_of(*later));
            call.is_link(later - 1) && link.end == next.start
        };
        let later = (1..call.rules.len()).filter(is_joined);
        later.collect::<Vec<_>>().into_iter()
    };
    edited(case, at, things, |call, later| {
        let next = call.rules[later];
        let link = &mut call.rules[later - 1];
        (link.count, link.link) = (link.count + next.count, next.link);
        remove_rules(call, later, 1);
    })
}

fn without_id(case: &Case, at: usize) -> Option<Case> {
    let things = |call: &Call| places(&call.rules, |rule| rule.present == 1);
    edited(case, at, things, |call, rule| {
        (call.rules[rule].present, call.rules[rule].id) = (0, 0);
    })
}

fn without_outcome(case: &Case, at: usize) -> Option<Case> {
    let things = |call: &Call| places(&call.outcomes, |it| *it != outcome::MATCHED);
    edited(case, at, things, |call, rule| {
        call.outcomes[rule] = outcome::MATCHED
    })
}

fn without_text(case: &Case, at: usize) -> Option<Case> {
    let has_text = |action: &Action| action.kind != kind::CTL && action.text.len > 0;
    let things = |call: &Call| places(&call.actions, has_text);
    edited(case, at, things, |call, action| {
        call.actions[action].text = Part::default()
    })
}

/// With a directive's list without its first or its last part.
fn without_part(case: &Case, at: usize) -> Option<Case> {
    let things = |call: &Call| {
        let is_list = |action: &Action| call.text(action.value).contains(&b',');
        places(&call.actions, |action| {
            action.kind == kind::CTL && is_list(action)
        })
    };
    edited(case, at / 2, things, |call, action| {
        let list = call.text(call.actions[action].value);
        let (mut places, is_comma) = (0..list.len(), |at: &usize| list[*at] == b',');
        let kept = match at.is_multiple_of(2) {
            true => places.find(is_comma).map_or(0, |first| first + 1)..list.len(),
            false => 0..places.rfind(is_comma).unwrap_or(0),
        };
        let value = &mut call.actions[action].value;
        value.start += kept.start as u64;
        value.len = kept.len() as u64;
    })
}

/// With a byte less at the start or the end of a text.
fn without_length(case: &Case, at: usize) -> Option<Case> {
    let shorter = |part: &mut Part, from_start: bool| {
        part.start += u64::from(from_start);
        part.len -= 1;
    };
    let has_text = |action: &Action| action.kind == kind::CTL && action.value.len > 0;
    let things = |call: &Call| places(&call.actions, has_text);
    edited(case, at / 2, things, |call, action| {
        shorter(&mut call.actions[action].value, at.is_multiple_of(2));
    })
}

/// With a directive's name trimmed.
fn without_blanks(case: &Case, at: usize) -> Option<Case> {
    let trimmed_name = |call: &Call, action: &Action| {
        let name = call.text(action.text);
        let is_blank = |byte: &&u8| trimmed(&[**byte]).is_empty();
        let start = name.iter().take_while(is_blank).count();
        Part {
            start: action.text.start + start as u64,
            len: trimmed(name).len() as u64,
        }
    };
    let things = |call: &Call| {
        let is_longer = |action: &Action| trimmed_name(call, action) != action.text;
        places(&call.actions, |action| {
            action.kind == kind::CTL && is_longer(action)
        })
    };
    edited(case, at, things, |call, action| {
        call.actions[action].text = trimmed_name(call, &call.actions[action]);
    })
}

/// With a directive of no name, which is unsupported as any unknown one is.
fn without_name(case: &Case, at: usize) -> Option<Case> {
    let has_name = |action: &Action| action.kind == kind::CTL && action.text.len > 0;
    let things = |call: &Call| places(&call.actions, has_name);
    edited(case, at, things, |call, action| {
        call.actions[action].text = Part::default();
    })
}

/// With two neighbours among a rule's actions in the order of their kinds.
fn without_disorder(case: &Case, at: usize) -> Option<Case> {
    let things = |call: &Call| {
        let pairs = |index| call.places_of(index).skip(1).map(|later| later - 1);
        let is_wrong = |at: &usize| call.actions[*at].kind > call.actions[at + 1].kind;
        let pairs = (0..call.rules.len()).flat_map(pairs).filter(is_wrong);
        pairs.collect::<Vec<_>>().into_iter()
    };
    edited(case, at, things, |call, at| call.actions.swap(at, at + 1))
}

/// Without the first rules of the first call, what they leave held before it.
fn without_start(case: &Case, at: usize) -> Option<Case> {
    let (count, mut smaller) = (at + 1, case.clone());
    let mut start = case.calls.first()?.clone();
    let rest = start.rules.len().checked_sub(count)?;
    remove_rules(&mut start, count, rest);
    let mut run = Run::new(case.mode, case.status.into(), &case.entry);
    let left = run.call(&start.written());
    smaller.entry = Entry {
        mode: left.mode,
        body_access: left.body_access,
        body_processor: left.body_processor,
        ranges: left.ranges,
        allowed: left.allowed,
        stopped: left.intervention != Stop::No,
    };
    remove_rules(&mut smaller.calls[0], 0, count);
    Some(smaller)
}

#[cfg(test)]
mod tests {
    use super::*;
    use tivembo::{Act, RuleSet};

    fn case(rules: &[&[Act<'_>]]) -> Case {
        let mut set = RuleSet::builder();
        for (id, actions) in (1..).zip(rules) {
            set.rule(Some(id), false, actions);
        }
        let outcomes = vec![outcome::MATCHED_VARIABLE; rules.len()];
        Case {
            calls: vec![Call::of_rules(1, &set.build_as_given(), outcomes)],
            ..Case::default()
        }
    }

    fn shrunk_text(case: Case, differs: impl Fn(&Case) -> bool) -> String {
        let text = shrunk(case, differs).written("s").to_string();
        text.lines().skip(3).collect::<Vec<_>>().join("; ")
    }

    /// Whether the first rule has an action of this kind among so many.
    fn has(case: &Case, kind: u64, count: usize) -> bool {
        let call = case.calls.first();
        let call = call.filter(|call| !call.rules.is_empty());
        call.is_some_and(|call| {
            let actions = call.actions_of(0);
            actions.len() == count && actions.iter().any(|action| action.kind == kind)
        })
    }

    #[test]
    fn what_has_no_part_in_it_goes() {
        let large = case(&[&[Act::Status(5)], &[Act::Rev(b"x"), Act::Id(7)]]);
        let small = shrunk_text(large, |case| has(case, kind::STATUS, 1));
        assert_eq!(small, "call 1; rule - matched;   status 5; end");
    }

    #[test]
    fn actions_become_plainer_and_stand_in_order() {
        let ctl = Act::Ctl(b" ruleEngine", b"On");
        let large = case(&[&[ctl, Act::Drop, Act::Rev(b"x")]]);
        let sets_a_mode = |case: &Case| case.written("s").to_string().contains("ruleEngine");
        let small = shrunk_text(large, |case| has(case, kind::CTL, 3) && sets_a_mode(case));
        let rule = "call 1; rule - matched;   pass;   msg \"\"";
        assert_eq!(small, format!("{rule};   ctl \"ruleEngine\" \"\"; end"));
    }

    /// Where a byte less at either end would leave a list of other parts.
    #[test]
    fn a_list_loses_its_first_and_last_parts() {
        let large = case(&[&[Act::Ctl(b"ruleRemoveById", b"30-40,7,8,19-20")]]);
        let parts: [&[u8]; 4] = [b"30-40", b"7", b"8", b"19-20"];
        let has_7_and_8 = |case: &Case| {
            let value = has(case, kind::CTL, 1).then(|| case.calls[0].actions[0].value);
            value.is_some_and(|value| {
                let list: Vec<&[u8]> = case.calls[0].text(value).split(|b| *b == b',').collect();
                let is_among = list.iter().all(|part| parts.contains(part));
                is_among && list.contains(&parts[1]) && list.contains(&parts[2])
            })
        };
        let small = shrunk_text(large, has_7_and_8);
        assert_eq!(small, "call 1; rule - matched;   ctl \"\" \"7,8\"; end");
    }

    #[test]
    fn a_directive_loses_its_name() {
        let large = case(&[&[Act::Ctl(b"auditEngine", b"On")]]);
        let small = shrunk_text(large, |case| has(case, kind::CTL, 1));
        assert_eq!(small, "call 1; rule - matched;   ctl \"\" \"\"; end");
    }

    #[test]
    fn a_link_is_joined_with_its_closing_rule() {
        let mut large = case(&[&[Act::Status(1)], &[Act::Status(2)]]);
        large.calls[0].rules[0].link = 1;
        let small = shrunk_text(large, |case| has(case, kind::STATUS, 2) || is_chain(case));
        let rule = "call 1; rule - matched;   status 1";
        assert_eq!(small, format!("{rule};   status 2; end"));
    }

    fn is_chain(case: &Case) -> bool {
        let call = case.calls.first();
        call.is_some_and(|call| call.rules.len() == 2 && call.is_link(0) && call.actions.len() == 2)
    }

    /// A rule that only removes another is held as the range that it adds.
    #[test]
    fn what_a_start_leaves_is_held() {
        let large = case(&[
            &[Act::Ctl(b"ruleRemoveById", b"2")],
            &[Act::Deny],
            &[Act::Pass],
        ]);
        let removes_2 = |case: &Case| {
            let ran = oracle::run_case(&case.written("s"));
            let has_2 = case
                .calls
                .iter()
                .any(|call| call.rules.iter().any(|rule| rule.id == 2));
            has_2 && ran.calls.iter().all(|call| !call.ids.contains(&2))
        };
        let small = shrunk(large, removes_2);
        assert_eq!(small.entry.ranges, [(2, 2)]);
        assert_eq!(small.calls[0].rules.len(), 1);
    }
}
