//! Counts of what was compared, to show that nothing was left out.

use super::{Checked, Fate};
use crate::{reply::Reply, script::Group};
use std::{collections::BTreeMap, fmt};

#[derive(Debug, Clone, Default)]
pub struct Tally {
    pub scripts: usize,
    pub fates: BTreeMap<Fate, usize>,
    /// Compared calls.
    pub groups: BTreeMap<Group, usize>,
    /// Accepted and refused events of runs.
    pub events: usize,
    /// How often each refusal was given to a call that was compared.
    pub refusals: BTreeMap<u8, usize>,
    /// The same of edits alone.
    pub edit_refusals: BTreeMap<u8, usize>,
}

impl Tally {
    /// Adds the calls of one script.
    pub fn add(&mut self, script: &[Checked]) {
        self.scripts += 1;
        for call in script {
            *self.fates.entry(call.fate).or_default() += 1;
            if call.fate == Fate::Compared {
                self.add_compared(call);
            }
        }
    }

    fn add_compared(&mut self, call: &Checked) {
        *self.groups.entry(call.group).or_default() += 1;
        if let Some(refusal) = call.reply.refusal() {
            *self.refusals.entry(refusal.0).or_default() += 1;
            if call.group == Group::Edit {
                *self.edit_refusals.entry(refusal.0).or_default() += 1;
            }
        }
        if let Reply::Run(run) = &call.reply {
            self.events += run.events.len() + usize::from(run.outcome.is_err());
        }
    }

    pub fn calls(&self) -> usize {
        self.fates.values().sum()
    }

    fn passed_over(&self, fate: Fate) -> usize {
        self.fates.get(&fate).copied().unwrap_or(0)
    }
}

/// Numbers with how often each was met.
struct Counted<'a>(&'a BTreeMap<u8, usize>);

impl fmt::Display for Counted<'_> {
    fn fmt(&self, f: &mut fmt::Formatter<'_>) -> fmt::Result {
        let mut counts = self.0.iter();
        counts.try_for_each(|(number, count)| write!(f, " {number}: {count}"))
    }
}

impl fmt::Display for Tally {
    fn fmt(&self, f: &mut fmt::Formatter<'_>) -> fmt::Result {
        write!(f, "{} scripts, {} calls", self.scripts, self.calls())?;
        let compared: Vec<String> = self
            .groups
            .iter()
            .map(|(group, count)| format!("{count} {}", group.name()))
            .collect();
        let (compared, events) = (compared.join(", "), self.events);
        write!(f, ", compared: {compared}; {events} events of sheets")?;
        write!(f, "; refusals{}", Counted(&self.refusals))?;
        if !self.edit_refusals.is_empty() {
            write!(f, ", of edits{}", Counted(&self.edit_refusals))?;
        }
        match self.passed_over(Fate::NotOffered) {
            0 => {}
            count => write!(f, "; {count} calls not offered and passed over")?,
        }
        match self.passed_over(Fate::AfterEdit) {
            0 => Ok(()),
            count => write!(
                f,
                "; {count} passed over after an edit that was not offered"
            ),
        }
    }
}
