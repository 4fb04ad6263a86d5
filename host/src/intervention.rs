//! What stops a request.

use crate::records::{HostIntervention, HostMetadata};
use crate::rulesets::{NoSuchText, RuleSets};
use crate::values::Place;

/// What stops a request. Its texts are [`Place`]s as a transaction holds them; [`Intervention::with_texts`] finds them.
#[derive(Debug, Clone, Copy, PartialEq, Eq)]
pub struct Intervention<T = Place> {
    /// 403 for deny, 302 for redirect, 444 for drop, and for block the status that the call was given.
    pub status: u64,
    /// Whether the connection is dropped.
    pub drop: bool,
    /// Where a redirect leads.
    pub url: Option<T>,
    /// The msg of the rule that started the unit.
    pub log: Option<T>,
    /// The id of the rule that closed the unit.
    pub closing: Option<u64>,
    /// The id action of the rule that started the unit, where it is another id.
    pub starter: Option<u64>,
    /// The phase in which it came about.
    pub phase: u64,
    /// The metadata of the rule that started the unit.
    pub metadata: Metadata<T>,
}

/// The metadata of the rule that started the unit: the last action of each kind.
#[derive(Debug, Clone, Copy, PartialEq, Eq)]
pub struct Metadata<T = Place> {
    /// The number of its id action.
    pub id: Option<u64>,
    /// Its msg.
    pub msg: Option<T>,
    /// Its logdata.
    pub logdata: Option<T>,
    /// Its rev.
    pub rev: Option<T>,
    /// Its ver.
    pub ver: Option<T>,
    /// Its severity.
    pub severity: Option<u64>,
    /// Its maturity.
    pub maturity: Option<u64>,
    /// Its accuracy.
    pub accuracy: Option<u64>,
}

impl Intervention {
    /// The intervention that a record holds, if any.
    pub fn from_record(record: &HostIntervention) -> Option<Self> {
        (record.present == 1).then(|| Self {
            status: record.status,
            drop: record.drop == 1,
            url: record.url.get(),
            log: record.log.get(),
            closing: record.closing.get(),
            starter: record.starter.get(),
            phase: record.phase,
            metadata: Metadata::from_record(&record.metadata),
        })
    }

    /// The same with its texts, found in the rule sets of the phases that were run.
    pub fn with_texts<'a>(
        &self,
        rules: &RuleSets<'a>,
    ) -> Result<Intervention<&'a [u8]>, NoSuchText> {
        let text = |place: Option<Place>| place.map(|place| rules.text(place)).transpose();
        let metadata = &self.metadata;
        Ok(Intervention {
            status: self.status,
            drop: self.drop,
            url: text(self.url)?,
            log: text(self.log)?,
            closing: self.closing,
            starter: self.starter,
            phase: self.phase,
            metadata: Metadata {
                id: metadata.id,
                msg: text(metadata.msg)?,
                logdata: text(metadata.logdata)?,
                rev: text(metadata.rev)?,
                ver: text(metadata.ver)?,
                severity: metadata.severity,
                maturity: metadata.maturity,
                accuracy: metadata.accuracy,
            },
        })
    }
}

impl<T> Intervention<T> {
    /// The rule ids of the intervention, in order: the closing rule's, then the starter's.
    pub fn ids(&self) -> impl Iterator<Item = u64> {
        self.closing.into_iter().chain(self.starter)
    }
}

impl Metadata {
    fn from_record(record: &HostMetadata) -> Self {
        Self {
            id: record.id.get(),
            msg: record.msg.get(),
            logdata: record.logdata.get(),
            rev: record.rev.get(),
            ver: record.ver.get(),
            severity: record.severity.get(),
            maturity: record.maturity.get(),
            accuracy: record.accuracy.get(),
        }
    }
}
