//! The directive reader. That it is the Rust's is shown by beside/directives; here, that the crate hands its answers on.

use tivembo::UnsupportedReason::{self, *};
use tivembo::{read_directive, BodyProcessor, Directive, Mode, Refusal, Target};

#[track_caller]
fn reads(name: &str, value: &str, expected: Directive) {
    let read = read_directive(name.as_bytes(), value.as_bytes());
    assert_eq!(read, Ok(expected), "{name}={value}");
}

#[test]
fn every_form() {
    reads("ruleEngine", "On", Directive::RuleEngine(Mode::On));
    reads(
        " RULEENGINE\t",
        "detectionONLY",
        Directive::RuleEngine(Mode::DetectionOnly),
    );
    reads("ruleEngine", "off", Directive::RuleEngine(Mode::Off));
    reads(
        "requestBodyAccess",
        "On",
        Directive::RequestBodyAccess(true),
    );
    reads(
        "requestBodyAccess",
        "Off",
        Directive::RequestBodyAccess(false),
    );
    let names = ["URLENCODED", "MULTIPART", "JSON", "XML"];
    for (number, name) in names.iter().enumerate() {
        let processor = BodyProcessor::from_number(number as u64).unwrap();
        assert_eq!(processor.to_string(), *name);
        reads(
            "requestBodyProcessor",
            name,
            Directive::RequestBodyProcessor(processor),
        );
    }
    let target = Target {
        rule_id: b"x",
        target: b"A;B",
    };
    reads(
        "ruleRemoveTargetById",
        "\x0b x ; A;B ",
        Directive::RuleRemoveTargetById(target),
    );
}

#[test]
fn ranges() {
    let ranges = |ranges: &[(u64, u64)]| Directive::RuleRemoveById(ranges.to_vec());
    reads(
        "ruleRemoveById",
        "942100-942999",
        ranges(&[(942_100, 942_999)]),
    );
    reads("ruleRemoveById", "5 - 7, +9", ranges(&[(5, 7), (9, 9)]));
    reads("ruleRemoveById", "1,,2", ranges(&[(1, 1), (2, 2)]));
    let most = "1,".repeat(32_768);
    reads("ruleRemoveById", &most, ranges(&[(1, 1); 32_768]));
}

/// Which reason it is goes by the directive's name.
#[test]
fn unsupported() {
    let names: [(UnsupportedReason, &str, &[&str]); 9] = [
        (
            ModeValue,
            " RULEengine\t",
            &["", "Detection", "0", "On Off"],
        ),
        (
            IdList,
            "ruleRemoveById",
            &[",", "", "1,5-4", "5-6-7", "-5", "5-", "+ 5", "abc"],
        ),
        (
            TargetForm,
            "ruleRemoveTargetById",
            &["", "1", "1;", " ;ARGS"],
        ),
        (BodyAccessValue, "requestBodyAccess", &["", "yes"]),
        (Processor, "requestBodyProcessor", &["", "YAML", "JSON,XML"]),
        (Audit, "auditEngine", &["", "On", "RelevantOnly"]),
        (Audit, "AUDITLOGPARTS", &["", "+E"]),
        (Unrecognised, " \x0b ", &["", "On"]),
        (Unrecognised, "ruleRemoveByTag", &["", "1"]),
    ];
    for (reason, name, values) in names {
        for value in values {
            reads(name, value, Directive::Unsupported(reason));
        }
    }
}

#[test]
fn refusals() {
    let long = vec![b'1'; 65_537];
    assert_eq!(
        read_directive(b"ruleRemoveById", &long),
        Err(Refusal::TooLarge)
    );
    assert_eq!(read_directive(&long, b"\xff"), Err(Refusal::TooLarge));
    assert_eq!(read_directive(b"\x80", b"1"), Err(Refusal::HighByte));
    let widest = read_directive(b"ruleRemoveById", &long[1..]);
    assert_eq!(widest, Ok(Directive::Unsupported(IdList)));
}
