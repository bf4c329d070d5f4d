//! Good chart files, damaged at each byte, cut at each length and lengthened by a byte: the example charts of the
//! repository, and drawn ones.

use super::files::File;
use crate::dice::Dice;
use std::path::Path;

/// A file with its name.
pub type Named = (String, Vec<u8>);

/// The example charts.
pub fn examples() -> std::io::Result<Vec<Named>> {
    let folder = Path::new(env!("CARGO_MANIFEST_DIR")).join("../../examples");
    let mut all = vec![];
    for entry in std::fs::read_dir(folder)? {
        let path = entry?.path();
        if path.extension().is_some_and(|name| name == "chart") {
            all.push((path.file_name().unwrap_or_default().to_string_lossy().into_owned(), std::fs::read(&path)?));
        }
    }
    all.sort();
    Ok(all)
}

/// Drawn files of at most so many bytes.
pub fn drawn(dice: &mut Dice, files: usize, most: usize) -> Vec<Named> {
    let short = std::iter::repeat_with(|| dice.whole().parts.concat()).filter(|bytes| bytes.len() <= most);
    short.take(files).enumerate().map(|(n, bytes)| (format!("drawn file {n}"), bytes)).collect()
}

/// What a byte may become: each of its bits turned, and the bytes at the ends of either half.
fn others(byte: u8) -> impl Iterator<Item = u8> {
    let turned = (0..8).map(move |bit| byte ^ 1 << bit);
    turned.chain([0x00, 0x7f, 0x80, 0xff]).filter(move |&other| other != byte)
}

/// Of a longer file there would be too many.
fn is_long(bytes: &[u8]) -> bool {
    bytes.len() > 1000
}

/// Each byte damaged in each way; in one of the ways, by turns, where the file is long.
fn changed(bytes: &[u8]) -> impl Iterator<Item = Vec<u8>> + '_ {
    let is_meant = |at: usize, way: usize| !is_long(bytes) || way == at % 11;
    let ways = move |at: usize| others(bytes[at]).enumerate().filter(move |&(way, _)| is_meant(at, way));
    let with = |at: usize, byte: u8| [&bytes[..at], &[byte], &bytes[at + 1..]].concat();
    (0..bytes.len()).flat_map(move |at| ways(at).map(move |(_, byte)| with(at, byte)))
}

/// All that is made of a good file, for arrays just long enough, one number too short and longer; the first only, where
/// the file is long.
pub fn damaged(bytes: &[u8], records: usize) -> impl Iterator<Item = File> + '_ {
    let cut = (0..=bytes.len()).map(|length| bytes[..length].to_vec());
    let lengthened = [0x00, 0x01, 0x7f, 0x80, 0xff].into_iter().map(move |more| [bytes, &[more]].concat());
    let enough = 5 * records;
    let mut rooms = vec![enough, enough.saturating_sub(1), enough + 7];
    rooms.truncate(if is_long(bytes) { 1 } else { 3 });
    let for_rooms = move |file: Vec<u8>| rooms.iter().map(|&room| File::new(&file, room)).collect::<Vec<File>>();
    changed(bytes).chain(cut).chain(lengthened).flat_map(for_rooms)
}
