//! Forms of numbers: which are taken, what comes before and behind them, and how the two rules hang together.

use reference::convert::convert_table;
use reference::program::{refusal_of, MAX_INPUT};
use reference::random::Random;
use reference::refusal::Refusal;
use reference::shortest::said;
use reference::table::{fewest_bytes, read_stored, read_table, LIMITS};
use reference::writer::{bytes_of, short};

/// One step too many, in a byte.
const TOO_MANY: u8 = LIMITS.steps as u8 + 1;

/// Of every number, the one form that is taken is the one in its fewest bytes.
#[test]
fn fewest_bytes_of_all_numbers() {
    let mut taken = 0;
    for width in 1..=3 {
        for value in 0..1u32 << (7 * width) {
            let more = |place: u32| if place + 1 < width { 0x80 } else { 0 };
            let number: Vec<u8> = (0..width).map(|place| (value >> (7 * place) & 0x7f) as u8 | more(place)).collect();
            assert_eq!(fewest_bytes(&number), number == bytes_of(&[short(value)]), "{number:02x?}");
            taken += u32::from(fewest_bytes(&number));
        }
    }
    assert_eq!(taken, 1 << 21);
}

/// A missing byte, then the form, then the value.
#[test]
fn judged_at_the_last_byte() {
    let cases: [(&[u8], u8, u8); 14] = [
        (&[0x80], 1, 1),
        (&[0x80, 0x80], 1, 1),
        (&[0x80, 0x80, 0x80], 2, 2),
        (&[0x80, 0], 2, 3),
        (&[0x81, 0], 2, 1),
        (&[0x81, 0x80, 0], 2, 1),
        (&[0x83, 0x80, 0], 2, 3),
        (&[0x80, 0x80, 1], 3, 3),
        (&[0xff, 0xff, 0x7f], 3, 3),
        (&[0x81, 0, 0, 0], 2, 0),
        (&[1, 0, 0], 0, 0),
        (&[1, 0, 0, 0], 10, 10),
        (&[1, 0x80 | TOO_MANY, 0], 2, 4),
        (&[1, TOO_MANY, 0x80, 0], 4, 4),
    ];
    let number = |read: Result<_, Refusal>| read.err().map_or(0, Refusal::number);
    for (bytes, today, before) in cases {
        assert_eq!((number(read_table(bytes)), number(read_stored(bytes))), (today, before), "{bytes:02x?}");
    }
}

/// Bytes that are often tables, with and without long forms.
fn some_bytes(random: &mut Random) -> Vec<u8> {
    let mut bytes = vec![random.pick(&[1, 2, 0x81, 0x82])];
    while let Err(Refusal::CutShort) = read_stored(&bytes) {
        bytes.push(random.pick(&[0, 0, 0, 0, 1, 1, 1, 2, 3, 0x41, 0x80, 0x80, 0x81, 0x82]));
    }
    bytes
}

/// What today's rule takes the old one takes for the same; where the old one refuses, today's refuses by the same or by 2.
#[test]
fn two_rules() {
    let mut random = Random::new(3);
    let (mut both, mut old_only) = (0, 0);
    for _ in 0..200_000 {
        let bytes = some_bytes(&mut random);
        match (read_table(&bytes), read_stored(&bytes)) {
            (Err(Refusal::LongNumber), old) => old_only += u32::from(old.is_ok()),
            (today, old) => {
                assert_eq!(today, old, "{bytes:02x?}");
                both += u32::from(today.is_ok());
            }
        }
    }
    assert!(both > 5000 && old_only > 5000, "{both} taken by both rules, {old_only} by the old one");
}

/// What is converted is taken by today's rule, says the same, and is converted to itself; a refusal is told by its line.
#[test]
fn converted_tables() {
    let mut random = Random::new(4);
    let mut shorter = 0;
    for _ in 0..200_000 {
        let bytes = some_bytes(&mut random);
        let converted = convert_table(&bytes);
        match read_stored(&bytes) {
            Err(refusal) => assert_eq!(converted, format!("refused {}\n", refusal.number()).into_bytes()),
            Ok(table) => {
                let read = read_table(&converted).unwrap();
                assert_eq!(said(&converted, &read), said(&bytes, &table), "{bytes:02x?}");
                assert_eq!(convert_table(&converted), converted);
                shorter += u32::from(converted.len() < bytes.len());
            }
        }
    }
    assert!(shorter > 5000, "{shorter} tables shortened");
}

/// The line of a refusal is no table, and neither is anything that starts like it.
#[test]
fn a_refusal_is_no_table() {
    for line in ["r", "refused 1\n", "refused 15\n"] {
        assert_eq!(read_stored(line.as_bytes()), Err(Refusal::Edition));
    }
    assert_eq!((refusal_of(&convert_table(&[1, TOO_MANY])), refusal_of(&convert_table(&[2, 0, 0]))), (4, 0));
}

/// Of a longer input the first bytes are judged, which makes no difference.
#[test]
fn long_inputs() {
    for (start, filling, due) in
        [(vec![0x81, 0, 0, 0], 0, 10), (vec![1, TOO_MANY - 1], 1, 7), (vec![], 0x80, 2), (vec![2], 0, 10)]
    {
        for len in [MAX_INPUT - 1, MAX_INPUT, MAX_INPUT + 1, 3 * MAX_INPUT] {
            let mut input = start.clone();
            input.resize(len, filling);
            assert_eq!(refusal_of(&convert_table(&input)), due);
            assert_eq!(read_stored(&input).map_err(Refusal::number), Err(due));
        }
    }
}
