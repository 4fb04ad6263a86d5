//! What a call and the directive reader gave, as the case format has it.

use case_format::{
    Answer, BodyProcessor, CallResult, DirectiveAnswer, Intervention, Mode, Stop, Unsupported,
    UnsupportedReason, Verdict,
};
use tivembo::{Directive, Phase, Refusal, RuleSets};

use crate::run::Walked;

/// What a call gave. After a refusal it added nothing.
pub fn result(walked: &Walked) -> CallResult {
    let controls = walked.transaction.controls();
    let phase = walked.result.as_ref().ok();
    CallResult {
        phase: walked.call.phase,
        answer: answer(&walked.result),
        visits: phase.map_or(Vec::new(), visits),
        ids: phase.map_or(Vec::new(), |phase| phase.ids().to_vec()),
        data: phase.map_or(Vec::new(), data),
        mode: controls.set_mode().map(mode),
        body_access: controls.set_body_access(),
        body_processor: controls.set_body_processor().map(body_processor),
        ranges: walked.ranges(),
        targets: walked.targets(),
        allowed: walked.transaction.is_allowed(),
        intervention: match walked.transaction.intervention() {
            None => Stop::No,
            Some(_) if walked.held => Stop::Held,
            Some(new) => Stop::New(Box::new(intervention(&new, &walked.texts()))),
        },
        unsupported: phase.and_then(unsupported),
    }
}

fn answer(result: &Result<Phase, Refusal>) -> Answer {
    match result.as_ref().map(Phase::answer) {
        Ok(tivembo::Answer::CarriedThrough) => Answer::Done,
        Ok(tivembo::Answer::RuleError(index)) => Answer::RuleError(index),
        Err(refusal) => Answer::Refused(refusal.number()),
    }
}

fn visits(phase: &Phase) -> Vec<(u64, Verdict)> {
    let verdict = |verdict| match verdict {
        tivembo::Verdict::Missed => Verdict::Missed,
        tivembo::Verdict::Matched => Verdict::Matched,
        tivembo::Verdict::Removed => Verdict::Removed,
        tivembo::Verdict::Error => Verdict::Error,
    };
    let visits = phase.visits();
    visits
        .map(|visit| (visit.0 as u64, verdict(visit.1)))
        .collect()
}

fn data(phase: &Phase) -> Vec<(Option<u64>, u64)> {
    phase.data().map(|entry| (entry.id, entry.index)).collect()
}

fn unsupported(phase: &Phase) -> Option<Unsupported> {
    let found = phase.unsupported()?;
    Some(Unsupported {
        rule: found.rule as u64,
        reason: reason(found.reason),
    })
}

fn reason(reason: tivembo::UnsupportedReason) -> UnsupportedReason {
    UnsupportedReason::from_number(reason.number()).expect("both have 02's reasons")
}

fn mode(mode: tivembo::Mode) -> Mode {
    Mode::from_number(mode.number()).expect("both have 01's modes")
}

fn body_processor(name: tivembo::BodyProcessor) -> BodyProcessor {
    BodyProcessor::from_number(name as u64).expect("both have 01's processors")
}

fn intervention(new: &tivembo::Intervention, rules: &RuleSets) -> Intervention {
    let new = new.with_texts(rules).expect("the call's rules have it");
    let text = |text: Option<&[u8]>| text.map(<[u8]>::to_vec);
    let metadata = &new.metadata;
    Intervention {
        status: new.status,
        drop: new.drop,
        url: text(new.url),
        log: text(new.log),
        ids: new.ids().collect(),
        phase: new.phase,
        id: metadata.id,
        msg: text(metadata.msg),
        logdata: text(metadata.logdata),
        rev: text(metadata.rev),
        ver: text(metadata.ver),
        severity: metadata.severity,
        maturity: metadata.maturity,
        accuracy: metadata.accuracy,
    }
}

/// What the directive reader made of a directive.
pub fn directive(read: &Result<Directive, Refusal>) -> DirectiveAnswer {
    match read {
        Ok(Directive::RuleEngine(set)) => DirectiveAnswer::Engine(mode(*set)),
        Ok(Directive::RuleRemoveById(ranges)) => DirectiveAnswer::Ranges(ranges.clone()),
        Ok(Directive::RuleRemoveTargetById(found)) => {
            DirectiveAnswer::Target(found.rule_id.to_vec(), found.target.to_vec())
        }
        Ok(Directive::RequestBodyAccess(on)) => DirectiveAnswer::BodyAccess(*on),
        Ok(Directive::RequestBodyProcessor(name)) => {
            DirectiveAnswer::BodyProcessor(body_processor(*name))
        }
        Ok(Directive::Unsupported(why)) => DirectiveAnswer::Unsupported(reason(*why)),
        Err(refusal) => DirectiveAnswer::Refused(refusal.number()),
    }
}
