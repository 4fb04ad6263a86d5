//! Results as the format prints them: what stands here is written from its page.

use case_format::{
    Answer, BodyProcessor, CallResult, CaseResult, DirectiveAnswer, Intervention, Mode, Stop,
    Unsupported, UnsupportedReason, Verdict,
};

/// The page's own example, as far as one call can give it.
fn example() -> CallResult {
    CallResult {
        phase: 1,
        answer: Answer::RuleError(4),
        visits: vec![
            (0, Verdict::Matched),
            (1, Verdict::Matched),
            (2, Verdict::Removed),
            (3, Verdict::Missed),
            (4, Verdict::Error),
        ],
        ids: vec![40, 41],
        data: vec![(Some(40), 0), (None, 1)],
        mode: Some(Mode::DetectionOnly),
        body_access: Some(false),
        body_processor: Some(BodyProcessor::Json),
        ranges: vec![(42, 42), (942_100, 942_999)],
        targets: vec![(b"942100".to_vec(), b"ARGS:token".to_vec())],
        allowed: true,
        intervention: Stop::New(Box::new(Intervention {
            status: 403,
            log: Some(b"x".to_vec()),
            ids: vec![43, 41],
            phase: 1,
            id: Some(41),
            msg: Some(b"x".to_vec()),
            ..Intervention::default()
        })),
        unsupported: Some(Unsupported {
            rule: 3,
            reason: UnsupportedReason::Unrecognised,
        }),
    }
}

#[test]
fn every_line() {
    let result = CaseResult {
        name: "C1".to_string(),
        calls: vec![example(), CallResult::empty(2)],
    };
    let expected = r#"case C1
call 1
answer 10 4
visits 0:matched 1:matched 2:removed 3:missed 4:error
ids 40 41
data 40@0 -@1
mode DetectionOnly
body-access Off
body-processor JSON
ranges 42-42 942100-942999
targets "942100";"ARGS:token"
allowed yes
intervention status=403 drop=no url=- log="x" ids=43,41 phase=1 id=41 msg="x" logdata=- rev=- ver=- severity=- maturity=- accuracy=-
unsupported 3 7
call 2
answer 0
visits
ids
data
mode -
body-access -
body-processor -
ranges
targets
allowed no
intervention -
unsupported -
end"#;
    assert_eq!(result.to_string(), expected);
}

#[test]
fn every_field_of_an_intervention() {
    let text = |text: &str| Some(text.as_bytes().to_vec());
    let whole = Intervention {
        status: 302,
        drop: true,
        url: text("u\t"),
        log: text(""),
        ids: Vec::new(),
        phase: 5,
        id: Some(0),
        msg: text("m"),
        logdata: text("l"),
        rev: text("r"),
        ver: text("v"),
        severity: Some(1),
        maturity: Some(2),
        accuracy: Some(3),
    };
    assert_eq!(
        whole.to_string(),
        r#"status=302 drop=yes url="u\x09" log="" ids=- phase=5 id=0 msg="m" logdata="l" rev="r" ver="v" severity=1 maturity=2 accuracy=3"#
    );
    assert_eq!(Stop::Held.to_string(), "held");
    assert_eq!(Answer::Refused(8).to_string(), "8");
}

#[test]
fn removed_visits_are_not_evaluated() {
    let evaluated: Vec<u64> = example().evaluated().map(|(index, _)| index).collect();
    assert_eq!(evaluated, [0, 1, 3, 4]);
}

#[test]
fn answers_of_the_directive_reader() {
    let said = [
        (DirectiveAnswer::Engine(Mode::On), "engine On"),
        (
            DirectiveAnswer::Ranges(vec![(1, 5), (7, 7)]),
            "ranges 1-5 7-7",
        ),
        (
            DirectiveAnswer::Target(b"1".to_vec(), b"\"".to_vec()),
            r#"target "1" "\"""#,
        ),
        (DirectiveAnswer::BodyAccess(true), "body-access On"),
        (
            DirectiveAnswer::BodyProcessor(BodyProcessor::Xml),
            "body-processor XML",
        ),
        (
            DirectiveAnswer::Unsupported(UnsupportedReason::ModeValue),
            "unsupported 1",
        ),
        (
            DirectiveAnswer::Unsupported(UnsupportedReason::Audit),
            "unsupported 6",
        ),
        (DirectiveAnswer::Refused(6), "answer 6"),
    ];
    for (answer, line) in said {
        assert_eq!(answer.to_string(), line);
    }
}
