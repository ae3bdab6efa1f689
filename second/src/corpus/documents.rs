//! The examples of the source documents.

use crate::making::blocks::*;
use crate::making::cases::Case;

/// The examples of source documents 002 and 003: as they are printed, and brought to revision 1.5.
pub fn all() -> Vec<Case> {
    let hex = |text: &str| -> Vec<u8> { text.split_whitespace().map(|w| u8::from_str_radix(w, 16).unwrap()).collect() };
    // 003, the desktop video camera: tables 2-5 to 2-10 and 2-14 to 2-16.
    let desk_printed =
        hex("0D 24 01 10 01 42 00 80 8D 5B 00 01 01  11 24 02 01 01 02 00 00 00 00 00 00 00 00 02 00 00  08 24 02 02 01 04 00 00
         09 24 03 03 01 01 00 05 00  08 24 04 04 02 01 02 00  0B 24 05 05 04 00 00 02 01 00 00");
    let desk = hex("0D 24 01 50 01 45 00 80 8D 5B 00 01 01  12 24 02 01 01 02 00 00 00 00 00 00 00 00 03 00 00 00  08 24 02 02 01 04 00 00
         09 24 03 03 01 01 00 05 00  08 24 04 04 02 01 02 00  0D 24 05 05 04 00 00 03 01 00 00 00 00");
    let desk_stream_printed = hex("0E 24 01 01 3F 00 82 00 03 01 01 00 01 00  0B 24 06 01 01 01 01 00 00 00 00
         26 24 07 01 03 B0 00 90 00 00 EC 0D 00 00 EC 0D 00 80 94 00 00 2A 2C 0A 00 00 2A 2C 0A 00 2A 2C 0A 00 00 00 00 00");
    let desk_stream = with(&desk_stream_printed, 14 + 11 + 34, 1);
    // 003, the video camera player: tables 3-5 to 3-9 and 3-13 to 3-17.
    let player_printed = hex("0D 24 01 10 01 40 00 FF FF FF FF 01 01  12 24 02 02 01 02 00 00 FF FF FF FF FF FF 03 00 02 00
         10 24 02 03 02 02 00 00 01 0D 05 AF FF FF 7F 00  08 24 04 01 02 02 03 00  09 24 03 04 01 01 00 01 00");
    let player = with(&player_printed, 3, 0x50);
    let player_stream = hex("0E 24 01 01 4C 00 85 00 04 03 00 00 01 00  0B 24 06 01 01 01 01 00 00 02 00
         1E 24 07 01 02 A0 00 78 00 00 65 04 00 00 A0 0F 00 00 08 00 00 2A 2C 0A 00 01 2A 2C 0A 00
         0F 24 03 86 02 20 03 58 02 FF FF FF FF 01 64  06 24 0D 00 00 00");
    // 002, tables 1-3 and 2-1: an encoding unit with 11 and with 14 bytes, as printed, and with the 13 bytes of revision 1.5.
    let encoder = |unit: &str| {
        control(CLOCK, &[1, 2], &[camera(1, [0; 3]), processing(4, 1, [1, 0, 0]), hex(unit), output(8, 0x0101, 4), output(9, 0x0101, 5)])
    };
    let units = [
        encoder("0B 24 07 05 04 00 02 CD 06 CD 06"),
        encoder("0E 24 07 05 04 02 00 03 05 00 01 05 00 01"),
        encoder("0D 24 07 05 04 00 03 CD 06 00 CD 06 00"),
        encoder("0D 24 07 05 04 02 03 05 00 01 05 00 01"),
    ];
    // 002, tables 1-2, 1-4, 2-2 and 2-3: formats that are not read here.
    let simulcast = |descriptors: &[Vec<u8>]| streaming(1, 0x83, 9, 1, descriptors);
    let coded = [
        simulcast(&[descriptor(0x15, &[1, 8, 4, 1, 0, 3, 3, 0, 0x0D]), descriptor(0x14, &[1])]),
        simulcast(&[hex("0D 24 18 01 01 01 03 01 02 03 01 40 BC"), descriptor(0x17, &[1])]),
        simulcast(&[descriptor(
            0x17,
            &hex("01 80 02 68 01 03 80 00 00 04 00 04 00 00 00 20 A1 07 00 80 84 1E 00 15 16 05 00 03 15 16 05 00 28 2C 0A 00 50 58 14 00"),
        )]),
    ];
    let mut all: Vec<Case> =
        [desk_printed.clone(), desk.clone(), player_printed.clone(), player.clone()].into_iter().map(Case::Control).collect();
    all.extend(units.iter().cloned().map(Case::Control));
    for (control, block) in [
        (&desk_printed, &desk_stream),
        (&desk, &desk_stream_printed),
        (&desk, &desk_stream),
        (&player, &player_stream),
        (&player_printed, &player_stream),
    ] {
        all.push(Case::Streaming(control.clone(), block.clone()));
        for (interval, size) in [(666_666, 0x9480), (666_666, 0), (666_667, 0x9480), (0, 1), (333_333, 0x800)] {
            all.push(Case::Check(control.clone(), block.clone(), probe(1, 1, interval, size, 128)));
        }
    }
    for block in coded {
        all.push(Case::Streaming(units[3].clone(), block));
    }
    for id in 0..=5 {
        all.push(Case::Map(desk.clone(), id));
        all.push(Case::Map(player.clone(), id));
        all.push(Case::Map(units[3].clone(), id));
    }
    // A class-specific endpoint descriptor (0x25) is none of an interface's: type not 0x24.
    all.push(Case::Control(control(CLOCK, &[1], &[camera(1, [0; 3]), hex("05 25 03 08 00")])));
    all
}
