//! Whether two archives say the same, whatever their free places hold, and whether
//! a table's kept places are those of an archive's records.

use super::layout;
use crate::archive::Archive;
use crate::limits::*;

/// The first thing of which two archives say something different, in words.
pub fn difference(one: &Archive, other: &Archive) -> Option<String> {
    setting(one, other)
        .or_else(|| (0..SESSIONS).find_map(|number| session(one, other, number)))
        .or_else(|| (0..SITES * PARTITIONS).find_map(|number| node(one, other, number)))
        .or_else(|| (0..SITES * SITES * PARTITIONS).find_map(|number| channel(one, other, number)))
}

/// The first kept place of a table that an archive's records don't say, in words.
pub fn kept_difference(table: &[u8], archive: &Archive) -> Option<String> {
    (0..SITES * PARTITIONS).find_map(|number| kept(table, archive, number))
}

/// At keys of other partitions and at absent nodes the archive has no record.
fn kept(table: &[u8], archive: &Archive, number: usize) -> Option<String> {
    let (site, partition) = (number / PARTITIONS, number % PARTITIONS);
    let Some(kept) = table.get(layout::kept_part(site, partition)) else {
        return Some("the table is too short".into());
    };
    let newest = archive.node(site, partition).newest_places();
    let key = (0..KEYS).find(|key| kept[*key] != newest[*key])?;
    let (this, that) = (kept[key], newest[key]);
    Some(format!("kept place of key {key} at node {site},{partition}: {this} and {that}"))
}

fn setting(one: &Archive, other: &Archive) -> Option<String> {
    let (this, that) = ((one.sites, one.partitions), (other.sites, other.partitions));
    (this != that).then(|| format!("setting: {this:?} and {that:?}"))
}

/// What a closed session keeps means nothing.
fn session(one: &Archive, other: &Archive, number: usize) -> Option<String> {
    let (this, that) = (&one.sessions[number], &other.sessions[number]);
    let same = this == that || !this.open && !that.open;
    (!same).then(|| format!("session {number}: {this:?} and {that:?}"))
}

fn node(one: &Archive, other: &Archive, number: usize) -> Option<String> {
    let (site, partition) = (number / PARTITIONS, number % PARTITIONS);
    let says = |archive: &Archive| {
        let node = archive.node(site, partition);
        (node.clock, node.vector, node.records().to_vec())
    };
    let (this, that) = (one.node(site, partition), other.node(site, partition));
    let same = (this.clock, this.vector) == (that.clock, that.vector);
    let same = same && this.records() == that.records();
    (!same).then(|| format!("node {site},{partition}: {:?} and {:?}", says(one), says(other)))
}

fn channel(one: &Archive, other: &Archive, number: usize) -> Option<String> {
    let (from, rest) = (number % SITES, number / SITES);
    let (to, partition) = (rest % SITES, rest / SITES);
    let says = |archive: &Archive| {
        let channel = archive.channel(from, to, partition);
        (0..channel.len()).map(|at| channel.at(at).copied()).collect::<Vec<_>>()
    };
    let (this, that) = (one.channel(from, to, partition), other.channel(from, to, partition));
    let same = (0..=MESSAGES).all(|at| this.at(at) == that.at(at));
    (!same)
        .then(|| format!("channel {from}-{to},{partition}: {:?} and {:?}", says(one), says(other)))
}
