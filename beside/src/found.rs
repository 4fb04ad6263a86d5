//! In what two sides of a call differ.

use case_format::CallResult;

/// The names of the result's lines in which two sides differ; of the visits those of evaluated rules count, because the Rust
/// has no others.
pub fn differing(one: &CallResult, other: &CallResult) -> Vec<&'static str> {
    let same = [
        ("answer", one.answer == other.answer),
        ("visits", one.evaluated().eq(other.evaluated())),
        ("ids", one.ids == other.ids),
        ("data", one.data == other.data),
        ("mode", one.mode == other.mode),
        ("body-access", one.body_access == other.body_access),
        ("body-processor", one.body_processor == other.body_processor),
        ("ranges", one.ranges == other.ranges),
        ("targets", one.targets == other.targets),
        ("allowed", one.allowed == other.allowed),
        ("intervention", one.intervention == other.intervention),
        ("unsupported", one.unsupported == other.unsupported),
    ];
    let differs = same.iter().filter(|(_, same)| !same);
    differs.map(|(name, _)| *name).collect()
}

#[cfg(test)]
mod tests {
    use super::*;
    use case_format::{
        Answer, BodyProcessor, Intervention, Mode, Stop, Unsupported, UnsupportedReason, Verdict,
    };

    const PAIR: Unsupported = Unsupported {
        rule: 0,
        reason: UnsupportedReason::ModeValue,
    };

    fn changed(change: impl Fn(&mut CallResult)) -> Vec<&'static str> {
        let mut other = CallResult::empty(1);
        change(&mut other);
        differing(&CallResult::empty(1), &other)
    }

    #[test]
    fn each_line_is_named() {
        assert!(changed(|_| ()).is_empty());
        assert_eq!(changed(|it| it.answer = Answer::RuleError(0)), ["answer"]);
        let visit = (0, Verdict::Missed);
        assert_eq!(changed(|it| it.visits.push(visit)), ["visits"]);
        assert_eq!(changed(|it| it.ids.push(1)), ["ids"]);
        assert_eq!(changed(|it| it.data.push((None, 0))), ["data"]);
        assert_eq!(changed(|it| it.mode = Some(Mode::On)), ["mode"]);
        assert_eq!(changed(|it| it.body_access = Some(true)), ["body-access"]);
        let processor = Some(BodyProcessor::Xml);
        assert_eq!(
            changed(|it| it.body_processor = processor),
            ["body-processor"]
        );
        assert_eq!(changed(|it| it.ranges.push((1, 2))), ["ranges"]);
        assert_eq!(changed(|it| it.targets.push((vec![], vec![]))), ["targets"]);
        assert_eq!(changed(|it| it.allowed = true), ["allowed"]);
        assert_eq!(changed(|it| it.intervention = Stop::Held), ["intervention"]);
        assert_eq!(changed(|it| it.unsupported = Some(PAIR)), ["unsupported"]);
    }

    /// So that a name always has its line, and a line its name.
    #[test]
    fn names_are_those_of_the_lines() {
        let whole = |it: &mut CallResult| {
            *it = CallResult {
                phase: 1,
                answer: Answer::Refused(1),
                visits: vec![(0, Verdict::Matched)],
                ids: vec![1],
                data: vec![(None, 0)],
                mode: Some(Mode::Off),
                body_access: Some(false),
                body_processor: Some(BodyProcessor::Json),
                ranges: vec![(1, 2)],
                targets: vec![(vec![], vec![])],
                allowed: true,
                intervention: Stop::Held,
                unsupported: Some(PAIR),
            }
        };
        let lines = CallResult::empty(1).lines();
        let first = |line: &String| line.split(' ').next().map(str::to_string);
        let words: Vec<String> = lines.iter().filter_map(first).collect();
        assert_eq!(changed(whole), words[1..]);
    }

    #[test]
    fn each_field_of_an_intervention_counts() {
        let changes: [fn(&mut Intervention); 14] = [
            |it| it.status = 403,
            |it| it.drop = true,
            |it| it.url = Some(Vec::new()),
            |it| it.log = Some(Vec::new()),
            |it| it.ids.push(1),
            |it| it.phase = 1,
            |it| it.id = Some(0),
            |it| it.msg = Some(Vec::new()),
            |it| it.logdata = Some(Vec::new()),
            |it| it.rev = Some(Vec::new()),
            |it| it.ver = Some(Vec::new()),
            |it| it.severity = Some(0),
            |it| it.maturity = Some(0),
            |it| it.accuracy = Some(0),
        ];
        for change in changes {
            let mut built = Intervention::default();
            change(&mut built);
            assert_ne!(built, Intervention::default());
        }
    }

    #[test]
    fn removed_visits_are_left_out() {
        assert!(changed(|it| it.visits.push((0, Verdict::Removed))).is_empty());
    }
}
