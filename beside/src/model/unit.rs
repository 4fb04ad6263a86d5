//! What a closed unit gives: "its id is listed, controls apply, then flow, then the disruptive action. Flow, disruptive
//! action and metadata are the starter's."

use case_format::{Intervention, Mode, Stop};
use tivembo::Action;

use super::{Reading as R, Walk};
use crate::case::{kind, outcome};

pub fn is_ctl(action: &Action) -> bool {
    action.kind == kind::CTL
}

fn is_disruptive(action: &Action) -> bool {
    (kind::DENY..=kind::DROP).contains(&action.kind)
}

fn is_flow(action: &Action) -> bool {
    (kind::CHAIN..=kind::MULTI_MATCH).contains(&action.kind)
}

impl Walk<'_> {
    /// Closes the unit of the open chain's members, the last of which is no link, and gives the next index; none where it
    /// allows or stops.
    pub(super) fn close(&mut self) -> Option<usize> {
        let members = std::mem::take(&mut self.members);
        let (starter, closing) = (members[0], members[members.len() - 1]);
        self.list(&members, starter, closing);
        let mode_before = self.model.mode();
        for &member in &members {
            let was_early = self.model.reads(R::LinkControlsEarly) && member != closing;
            if !was_early {
                self.apply_controls(member, starter);
            }
        }
        let mode = match self.model.reads(R::ModeBeforeControls) {
            true => mode_before,
            false => self.model.mode(),
        };
        if self.ends(starter, closing, mode) {
            return None;
        }
        Some(self.after_flow(starter, closing))
    }

    /// "the starter's id if any, one data entry for each member with outcome 2 (own id, else the starter's, else none)"
    fn list(&mut self, members: &[usize], starter: usize, closing: usize) {
        let id = |index| self.call.id_of(index);
        self.found.ids.extend(id(starter));
        if self.model.reads(R::ClosingIdListed) && starter != closing {
            self.found.ids.extend(id(closing));
        }
        for &member in members {
            if self.call.outcomes[member] == outcome::MATCHED_VARIABLE {
                let entry = (id(member).or(id(starter)), member as u64);
                self.found.data.push(entry);
            }
        }
    }

    /// "Allow takes effect in any mode; the four stopping actions only in On".
    fn ends(&mut self, starter: usize, closing: usize, mode: Mode) -> bool {
        let mut disruptive = self.call.actions_of(starter).iter();
        let chosen = match self.model.reads(R::FirstDisruptive) {
            true => disruptive.find(|action| is_disruptive(action)),
            false => disruptive.rfind(|action| is_disruptive(action)),
        };
        let Some(action) = chosen.filter(|action| action.kind != kind::PASS) else {
            return false;
        };
        if action.kind == kind::ALLOW {
            let waits = self.model.reads(R::AllowWaits) && mode != Mode::On;
            self.model.held.allowed = !waits;
            return !waits;
        }
        if mode == Mode::On {
            let built = self.build(action, starter, closing);
            self.found.intervention = Stop::New(Box::new(built));
            self.model.held.stopped = true;
        }
        mode == Mode::On
    }

    fn after_flow(&self, starter: usize, closing: usize) -> usize {
        let (next, count) = (closing + 1, self.call.rules.len());
        let mut actions = self.call.actions_of(starter).iter();
        match actions.rfind(|action| is_flow(action)) {
            Some(skip) if skip.kind == kind::SKIP => next.saturating_add(skip.number as usize),
            Some(skip) if skip.kind == kind::SKIP_AFTER => {
                let jumps = |at: &usize| {
                    *at > next || self.model.reads(R::JumpDirectlyBehind) && *at == next
                };
                let name = self.call.text(skip.text);
                self.marker(name).filter(jumps).unwrap_or(count)
            }
            _ => next,
        }
    }

    /// "For a repeated marker name the latest record decides."
    fn marker(&self, name: &[u8]) -> Option<usize> {
        let mut markers = self.call.markers.iter();
        let is_it = |marker: &&tivembo::Marker| self.call.text(marker.name) == name;
        let found = match self.model.reads(R::FirstMarker) {
            true => markers.find(is_it),
            false => markers.rfind(is_it),
        };
        found.map(|marker| marker.position as usize)
    }

    fn build(&self, action: &Action, starter: usize, closing: usize) -> Intervention {
        let metadata = match self.model.reads(R::ClosingMetadata) {
            true => closing,
            false => starter,
        };
        let last = |kind| {
            let mut actions = self.call.actions_of(metadata).iter();
            actions.rfind(|action| action.kind == kind)
        };
        let number = |kind| last(kind).map(|action| action.number);
        let text = |kind| last(kind).map(|action| self.call.text(action.text).to_vec());
        let status = match action.kind {
            kind::DENY if self.model.reads(R::StatusActs) => number(kind::STATUS).unwrap_or(403),
            kind::DENY => 403,
            kind::REDIRECT => 302,
            kind::DROP => 444,
            _ => self.model.status,
        };
        let url = (action.kind == kind::REDIRECT).then(|| self.call.text(action.text).to_vec());
        let id = number(kind::ID);
        let closing_id = self.call.id_of(closing);
        let other = id.filter(|id| Some(*id) != closing_id);
        Intervention {
            status,
            drop: action.kind == kind::DROP,
            url,
            log: text(kind::MSG),
            ids: closing_id.into_iter().chain(other).collect(),
            phase: self.call.phase,
            id,
            msg: text(kind::MSG),
            logdata: text(kind::LOGDATA),
            rev: text(kind::REV),
            ver: text(kind::VER),
            severity: number(kind::SEVERITY),
            maturity: number(kind::MATURITY),
            accuracy: number(kind::ACCURACY),
        }
    }
}
