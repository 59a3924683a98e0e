//! The archive that a run is in: options, then the text's own line, then 4 and 4.

use level_archive::Archive;
use level_archive::limits::{PARTITIONS, SITES};

use super::options::Options;
use crate::failure::Failure;
use crate::words::counted;

/// The archive of the options; that of the bench, 4 and 4, where they say nothing.
pub fn usual(options: &Options) -> Result<Archive, Failure> {
    archive(options, SITES.into(), PARTITIONS.into()).map_err(Failure::Usage)
}

/// The archive of a line at `place`; options go before it.
pub fn of_line(
    options: &Options,
    sites: u32,
    partitions: u32,
    place: &str,
) -> Result<Archive, Failure> {
    archive(options, sites, partitions)
        .map_err(|message| Failure::Input(format!("{place}: {message}")))
}

fn archive(options: &Options, sites: u32, partitions: u32) -> Result<Archive, String> {
    let sites = options.sites.unwrap_or(sites);
    let partitions = options.partitions.unwrap_or(partitions);
    Archive::new(sites, partitions).map_err(|refusal| {
        let (number, named) = (refusal.number(), [(sites, "site"), (partitions, "partition")]);
        let [sites, partitions] = named.map(|(count, name)| counted(count.into(), name));
        format!("{sites} and {partitions} are refused with {number}: each is 1 to 4")
    })
}
