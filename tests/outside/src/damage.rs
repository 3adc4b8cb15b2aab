//! Changes to a sheet's bytes, most of which make it one that is refused.

use crate::random::Random;
use crate::tree::*;
use crate::writer::Writer;

/// One change, or two or three.
pub fn damage(writer: &mut Writer, random: &mut Random) {
    for _ in 0..random.one_of(&[1, 1, 1, 1, 2, 2, 3]) {
        change(writer, random);
    }
}

fn change(writer: &mut Writer, random: &mut Random) {
    match random.below(13) {
        0 => flip_bits(writer, random),
        1 => cut_anywhere(writer, random),
        2 => cut_at_record(writer, random),
        3 => add_bytes(writer, random),
        4..=6 => edge_field(writer, random),
        7 => other_length(writer, random),
        8 => other_kind(writer, random),
        9 => other_record(writer, random),
        10 => move_record(writer, random),
        11 => edge_call(writer, random),
        _ => bad_and_cut(writer, random),
    }
}

fn flip_bits(writer: &mut Writer, random: &mut Random) {
    for _ in 0..random.between(1, 4) {
        if !writer.bytes.is_empty() {
            let at = random.index(writer.bytes.len());
            writer.bytes[at] ^= 1 << random.below(8);
        }
    }
}

fn cut_anywhere(writer: &mut Writer, random: &mut Random) {
    let length = random.index(writer.bytes.len() + 1);
    writer.bytes.truncate(length);
}

/// Inside a record, or right before it.
fn cut_at_record(writer: &mut Writer, random: &mut Random) {
    let place = random.one_of(&writer.places);
    writer.bytes.truncate(place + random.index(9));
}

/// A record with a bad kind or length, cut behind its first four bytes.
fn bad_and_cut(writer: &mut Writer, random: &mut Random) {
    let place = random.one_of(&writer.places);
    if let Some(byte) = writer.bytes.get_mut(place + random.one_of(&[0, 2])) {
        *byte ^= 1 << random.below(4);
    }
    writer.bytes.truncate(place + random.between(3, 11) as usize);
}

fn add_bytes(writer: &mut Writer, random: &mut Random) {
    if random.chance(50) {
        writer.record(PRIMITIVE, &[1]);
    } else {
        let more = random.between(1, 20);
        writer.bytes.extend((0..more).map(|_| random.next() as u8));
    }
}

/// A record that is still there as a whole; none if the sheet was cut before.
fn record(writer: &Writer, random: &mut Random) -> Option<(usize, u16)> {
    let place = random.one_of(&writer.places);
    let bytes = writer.bytes.get(place..place + 8)?;
    Some((place, u16::from_le_bytes([bytes[2], bytes[3]])))
}

fn set_field(writer: &mut Writer, start: usize, value: u32) {
    if let Some(field) = writer.bytes.get_mut(start..start + 4) {
        field.copy_from_slice(&value.to_le_bytes());
    }
}

/// On both sides of the field's range.
fn edge_field(writer: &mut Writer, random: &mut Random) {
    let Some((place, kind)) = record(writer, random) else { return };
    let second = random.chance(50);
    let edges: &[u32] = match (kind, second) {
        (SHEET, false) => &[0, 1, 2, 257, u32::MAX],
        (SHEET, true) => &[0, 1, 64, 65, 66, 1 << 31],
        (SEQUENCE, _) => &[0, 999, 1_000, 1_001, 1 << 16, u32::MAX],
        (ALTERNATIVE, _) => &[0, 1, 2, 255, 256, 257, u32::MAX],
        (HEAD_LOOP | TAIL_LOOP | MARKER, false) => &[0, 1, 999_999, 1_000_000, 1_000_001, 1 << 24, u32::MAX],
        (HEAD_LOOP | TAIL_LOOP, true) => &[0, 1, 2, 256, 1 << 31, u32::MAX],
        _ => &[0, 1, 1 << 31, u32::MAX],
    };
    let at = place + if second && matches!(kind, SHEET | HEAD_LOOP | TAIL_LOOP | MARKER) { 8 } else { 4 };
    set_field(writer, at, random.one_of(edges));
}

fn other_length(writer: &mut Writer, random: &mut Random) {
    let Some((place, _)) = record(writer, random) else { return };
    let lengths: [u16; 12] = [0, 4, 7, 8, 9, 11, 12, 13, 16, 264, 268, u16::MAX];
    writer.bytes[place..place + 2].copy_from_slice(&random.one_of(&lengths).to_le_bytes());
}

fn other_kind(writer: &mut Writer, random: &mut Random) {
    let Some((place, _)) = record(writer, random) else { return };
    let kinds: [u16; 20] = [0, 1, 2, 3, 4, 5, 6, 7, 8, 9, 10, 11, 12, 99, 100, 101, 258, 259, 1 << 15, u16::MAX];
    writer.bytes[place + 2..place + 4].copy_from_slice(&random.one_of(&kinds).to_le_bytes());
}

/// A record of another kind with the right length; the bytes that follow stay as they are.
fn other_record(writer: &mut Writer, random: &mut Random) {
    let Some((place, kind)) = record(writer, random) else { return };
    let long = matches!(kind, SHEET | HEAD_LOOP | TAIL_LOOP | MARKER);
    let kinds: &[u16] =
        if long { &[HEAD_LOOP, TAIL_LOOP, MARKER] } else { &[PRIMITIVE, SEQUENCE, ALTERNATIVE, TIMED_LOOP, CALL] };
    writer.bytes[place + 2..place + 4].copy_from_slice(&random.one_of(kinds).to_le_bytes());
}

/// A record is taken out, doubled, or a marker is put before it.
fn move_record(writer: &mut Writer, random: &mut Random) {
    let Some((place, kind)) = record(writer, random) else { return };
    let length = if matches!(kind, SHEET | HEAD_LOOP | TAIL_LOOP | MARKER) { 12 } else { 8 };
    let end = (place + length).min(writer.bytes.len());
    match random.below(3) {
        0 => drop(writer.bytes.drain(place..end)),
        1 => {
            let copy = writer.bytes[place..end].to_vec();
            writer.bytes.splice(place..place, copy);
        }
        _ => {
            let mut marker = Writer::default();
            marker.marker(random.skewed(1_000_001) as u32, 1);
            writer.bytes.splice(place..place, marker.bytes);
        }
    }
}

/// Where there is a call, another number; where there is a primitive, a call.
fn edge_call(writer: &mut Writer, random: &mut Random) {
    let Some((place, kind)) = record(writer, random) else { return };
    if matches!(kind, CALL | PRIMITIVE) {
        writer.bytes[place + 2..place + 4].copy_from_slice(&CALL.to_le_bytes());
        let near = random.below(6) as u32;
        set_field(writer, place + 4, random.one_of(&[0, 1, near, 63, 64, 65, 256, u32::MAX]));
    }
}
