//! The proved check of a proposal (document 02, P13): whether the rows are a path of the table, and score exactly this with this part list.
use crate::model::Sheet;
use crate::search;
use ::deeper::Proposal;
use ndigomarr::{check_path, Haplotype, Settings, Table};

/// What proposals are held to. Their letters are counted once, since a search makes many.
pub struct Check {
    settings: Settings,
    table: Table,
    haplotype: Haplotype,
}

impl Check {
    /// Of a haplotype in a sheet of its own.
    pub fn of(own: &Sheet) -> Option<Self> {
        let settings = own.settings.to_library();
        let table = search::table(own, &settings).ok()?;
        let haplotype = search::haplotype(&own.parts, &settings).ok()?;
        Some(Self { settings, table, haplotype })
    }

    /// A refusal is a no.
    pub fn says_yes(&self, proposal: &Proposal) -> bool {
        let Proposal { rows, positions, score } = proposal;
        check_path(&self.settings, &self.table, &self.haplotype, rows, positions, *score).unwrap_or(false)
    }
}
