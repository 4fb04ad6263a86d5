//! Several phases of one transaction, from several threads.

use std::thread;

use tivembo::{
    Act, Answer, BodyProcessor, Broken, Data, Mode, Outcome, Place, Refusal, RuleSet, RuleSets,
    Target, Transaction, Verdict,
};

const MATCHED: Outcome = Outcome::MatchedVariable;

/// The rules of phases 1 and 2.
fn rules() -> Result<(RuleSet, RuleSet), Broken> {
    let mut headers = RuleSet::builder();
    let target = Act::Ctl(b"ruleRemoveTargetById", b"942100; ARGS:token");
    headers.rule(Some(1), false, &[Act::Id(1), target]);
    let removal = Act::Ctl(b"ruleRemoveById", b"942100-942999");
    let body = Act::Ctl(b"requestBodyProcessor", b"json");
    headers.rule(Some(2), false, &[Act::Id(2), removal, body]);
    let mut body = RuleSet::builder();
    body.rule(Some(942_999), false, &[Act::Id(942_999), Act::Deny]);
    body.rule(
        Some(943_000),
        true,
        &[Act::Id(7), Act::Msg(b"odd"), Act::Drop],
    );
    body.rule(None, false, &[]);
    body.rule(Some(943_001), false, &[Act::Deny]);
    Ok((headers.build()?, body.build()?))
}

type Checked = Result<(), Box<dyn std::error::Error>>;

/// Where phase 1 removes a target.
const PLACE: Place = Place {
    phase: 1,
    position: 1,
};

fn first_phase(transaction: &mut Transaction, rules: &RuleSet) -> Checked {
    let outcomes = [MATCHED, Outcome::Matched];
    let phase = transaction.run_phase(rules, 1, Mode::On, 403, &outcomes)?;
    assert_eq!(phase.answer(), Answer::CarriedThrough);
    assert_eq!(phase.ids(), [1, 2]);
    let data = Data {
        id: Some(1),
        phase: 1,
        index: 0,
    };
    assert_eq!(phase.data().collect::<Vec<_>>(), [data]);
    let ranges = phase.transaction().controls().ranges();
    assert_eq!(ranges.collect::<Vec<_>>(), [(942_100, 942_999)]);
    assert_eq!(phase.targets().collect::<Vec<_>>(), [PLACE]);
    assert!(phase.intervention().is_none() && !phase.allows());
    Ok(())
}

/// It finds what the first removed, and stops.
fn second_phase(transaction: &mut Transaction, rules: &RuleSet) -> Checked {
    let phase = transaction.run_phase(rules, 2, Mode::On, 403, &[MATCHED; 4])?;
    let visits: Vec<_> = phase.visits().collect();
    let matched = |index| (index, Verdict::Matched);
    assert_eq!(visits, [(0, Verdict::Removed), matched(1), matched(2)]);
    assert_eq!(phase.ids(), [943_000]);
    let ids: Vec<_> = phase.data().map(|data| data.id).collect();
    assert_eq!(ids, [Some(943_000); 2]);
    assert_eq!(phase.targets().count(), 0);
    assert_eq!(phase.transaction().matched_ids(), [1, 2, 943_000]);
    assert_eq!(phase.transaction().data().count(), 3);
    assert!(phase.intervention().is_some());
    Ok(())
}

/// What is held is found again by the rule sets of both phases.
fn texts(transaction: &Transaction, rules: &RuleSets) -> Checked {
    let stop = transaction.intervention().ok_or("drop stops the request")?;
    let stop = stop.with_texts(rules)?;
    assert_eq!((stop.status, stop.drop, stop.phase), (444, true, 2));
    assert_eq!((stop.log, stop.url), (Some(&b"odd"[..]), None));
    assert_eq!(stop.ids().collect::<Vec<_>>(), [7]);
    let target = Target {
        rule_id: b"942100",
        target: b"ARGS:token",
    };
    assert_eq!(rules.target(PLACE)?, target);
    let controls = transaction.controls();
    assert_eq!(controls.removed_targets()?, [PLACE]);
    let processor = controls.request_body_processor()?;
    assert_eq!(processor, Some(BodyProcessor::Json));
    Ok(())
}

/// Two phases, and a third that finds the request stopped.
fn run() -> Checked {
    let (headers, body) = rules()?;
    let mut transaction = Transaction::new();
    first_phase(&mut transaction, &headers)?;
    second_phase(&mut transaction, &body)?;
    let phase = transaction.run_phase(&headers, 3, Mode::On, 403, &[MATCHED; 2])?;
    assert_eq!((phase.visits().count(), phase.intervention()), (0, None));
    texts(
        &transaction,
        &RuleSets::new().with(1, &headers).with(2, &body),
    )
}

#[test]
fn several_phases_of_one_transaction() {
    run().unwrap();
}

#[test]
fn a_second_thread_and_a_small_stack() {
    thread::spawn(|| run().unwrap()).join().unwrap();
    let small = thread::Builder::new().stack_size(256 * 1024);
    small.spawn(|| run().unwrap()).unwrap().join().unwrap();
}

/// A transaction that was begun in one thread goes on in another, and many go on at once.
#[test]
fn transactions_go_from_thread_to_thread() {
    let (headers, body) = rules().unwrap();
    thread::scope(|scope| {
        for _ in 0..4 {
            let mut transaction = Transaction::new();
            let ran = transaction.run_phase(&headers, 1, Mode::On, 403, &[MATCHED; 2]);
            ran.unwrap();
            scope.spawn(|| {
                let mut transaction = transaction;
                let ran = transaction.run_phase(&body, 2, Mode::On, 403, &[MATCHED; 4]);
                assert_eq!(ran.unwrap().visits().count(), 3);
            });
        }
    });
}

#[test]
fn a_rule_error_ends_the_phase() {
    let (_, body) = rules().unwrap();
    let outcomes = [Outcome::Matched, Outcome::Matched, Outcome::Error, MATCHED];
    let mut transaction = Transaction::new();
    let phase = transaction.run_phase(&body, 2, Mode::DetectionOnly, 403, &outcomes);
    let phase = phase.unwrap();
    assert_eq!(phase.answer(), Answer::RuleError(2));
    assert_eq!(phase.visits().last(), Some((2, Verdict::Error)));
    assert_eq!(phase.ids(), [942_999]);
}

#[test]
fn an_allowed_request_is_let_alone() {
    let mut rules = RuleSet::builder();
    rules.rule(Some(5), false, &[Act::Allow]);
    let rules = rules.build().unwrap();
    let mut transaction = Transaction::new();
    let mut run = |allows| {
        let phase = transaction.run_phase(&rules, 4, Mode::DetectionOnly, 403, &[MATCHED]);
        let phase = phase.unwrap();
        assert_eq!(
            (phase.allows(), phase.transaction().is_allowed()),
            (allows, true)
        );
        assert_eq!(phase.visits().count(), usize::from(allows));
    };
    run(true);
    run(false);
}

#[test]
fn refused_calls_change_nothing() {
    let (headers, _) = rules().unwrap();
    let mut transaction = Transaction::new();
    transaction
        .run_phase(&headers, 1, Mode::On, 403, &[MATCHED; 2])
        .unwrap();
    let before = transaction.clone();
    let mut refused = |phase, outcomes: &[Outcome]| {
        let ran = transaction.run_phase(&headers, phase, Mode::On, 403, outcomes);
        let refusal = ran.map(|phase| phase.answer()).unwrap_err();
        assert_eq!(transaction.record(), before.record());
        assert_eq!(transaction.matched_ids(), before.matched_ids());
        assert!(transaction.data().eq(before.data()));
        refusal
    };
    assert_eq!(refused(0, &[MATCHED; 2]), Refusal::UnknownPhaseOrMode);
    assert_eq!(refused(2, &[MATCHED; 3]), Refusal::OutcomeCount);
}

/// The lists are grown for each call, so that many calls with many matches find room.
#[test]
fn lists_grow_with_the_calls() {
    let mut rules = RuleSet::builder();
    (0..512).for_each(|id| {
        rules.rule(Some(id), false, &[]);
    });
    let rules = rules.build().unwrap();
    let mut transaction = Transaction::new();
    for call in 1..=20 {
        let phase = transaction.run_phase(&rules, 1, Mode::On, 403, &[MATCHED; 512]);
        let phase = phase.unwrap();
        assert_eq!((phase.ids().len(), phase.data().count()), (512, 512));
        assert_eq!(transaction.matched_ids().len(), 512 * call);
    }
}
