//! Why a text ended, at each place that has one: an identifier, a name, a unit, a value, a signal string.

use host::{arguments, message, raw, signals, Argument, Ended, Message, Parsed, Payload, Value};

/// Four bytes, the length of their text, and why it ended.
const TEXTS: [(&[u8; 4], usize, Ended); 12] = [
    (b"ABCD", 4, Ended::Size),
    (b"AB\xc3\xa9", 4, Ended::Size),
    (b"APP\0", 3, Ended::Zero),
    (b"\0\0\0\0", 0, Ended::Zero),
    (b"A\0\xff\xff", 1, Ended::Zero),
    (b"A\0\xc3\0", 1, Ended::Zero),
    (b"APP\xff", 3, Ended::Invalid),
    (b"\xff\0\0\0", 0, Ended::Invalid),
    // a sequence cut by the size, and by a zero byte
    (b"ABC\xc3", 3, Ended::Invalid),
    (b"A\xc3\0A", 1, Ended::Invalid),
    (b"\xe2\x82\0\0", 0, Ended::Invalid),
    (b"\xed\xa0\x80A", 0, Ended::Invalid),
];

fn item(bytes: &[u8], storage: bool) -> Message {
    match message(bytes, &[], storage) {
        Ok((Parsed::Item(message), _)) => message,
        other => panic!("{other:?} of {bytes:02x?}"),
    }
}

/// The one argument of a verbose message.
fn only_argument(argument: &[u8]) -> Argument {
    let mut bytes = b"\x21\0\0\x0e\x41\x01APP\0CTX\0".to_vec();
    bytes[3] += argument.len() as u8;
    bytes.extend(argument);
    let Payload::Verbose(list) = item(&bytes, false).payload else { panic!("no list") };
    let all: Vec<Argument> = arguments(&bytes, list).map(Result::unwrap).collect();
    assert_eq!(all.len(), 1);
    all[0]
}

#[test]
fn an_identifier() {
    for (id, len, ended) in TEXTS {
        let other = b"OTHR";
        for place in 0..4 {
            let ids: Vec<&[u8]> = (0..4).map(|n| if n == place { &id[..] } else { &other[..] }).collect();
            let bytes = [b"DLT\x01\0\0\0\0\0\0\0\0", ids[0], &[0x25, 0, 0, 22], ids[1], &[0x40, 0], ids[2], ids[3], &[0, 0, 0, 42]].concat();
            let message = item(&bytes, true);
            let extended = message.extended_header.unwrap();
            let texts = [message.storage_header.unwrap().ecu_id, message.header.ecu_id.unwrap(), extended.application_id, extended.context_id];
            for (n, text) in texts.into_iter().enumerate() {
                let expected = if n == place { (len, ended) } else { (4, Ended::Size) };
                assert_eq!((text.len, text.ended), expected, "{id:02x?} at {place}, text {n}");
            }
        }
    }
}

#[test]
fn a_name_and_a_unit() {
    for (name, name_len, name_ended) in TEXTS {
        for (unit, unit_len, unit_ended) in TEXTS {
            let argument = only_argument(&[&[0x41, 8, 0, 0, 4, 0, 4, 0][..], name, unit, &[7]].concat());
            let (name, unit) = (argument.name.unwrap(), argument.unit.unwrap());
            assert_eq!((name.len, name.ended, unit.len, unit.ended), (name_len, name_ended, unit_len, unit_ended));
            assert_eq!(argument.value, Value::U8(7));
        }
    }
}

#[test]
fn a_string_and_its_name() {
    for (words, len, ended) in TEXTS {
        let argument = only_argument(&[&[0, 0x0a, 0, 0, 4, 0, 2, 0][..], b"N\0", words].concat());
        let Value::String(value) = argument.value else { panic!("{argument:?}") };
        assert_eq!((value.len, value.ended), (len, ended), "{words:02x?}");
        assert_eq!(argument.name.map(|name| (name.len, name.ended)), Some((1, Ended::Zero)));
        assert_eq!(argument.unit, None);
    }
}

#[test]
fn of_size_zero() {
    let argument = only_argument(&[0, 2, 0, 0, 0, 0]);
    let Value::String(value) = argument.value else { panic!("{argument:?}") };
    assert_eq!((value.len, value.ended), (0, Ended::Size));
}

#[test]
fn a_signal_string() {
    for words in [&b"A\0"[..], b"\0\0\0", b"AB", b""] {
        let data = [&[words.len() as u8, 0], words].concat();
        let all: Vec<Argument> = signals(false, &[0x200], &data).map(Result::unwrap).collect();
        let Value::String(value) = all[0].value else { panic!("{all:?}") };
        assert_eq!((value.of(&data), value.ended), (words, Ended::Size));
    }
}

#[test]
fn no_text_no_reason() {
    let mut out = [9; raw::MESSAGE_SIZE];
    assert_eq!(raw::message(&[0x20, 7, 0, 8, 0, 0, 0, 42], &[], false, &mut out).number, raw::DONE);
    assert_eq!(out[raw::MESSAGE_STORED_ECU_ENDED..], [raw::ENDED_NONE; 4]);
    // raw data and a number, with no names
    for bytes in [&[0, 4, 0, 0, 2, 0, 0x41, 0][..], &[0x41, 0, 0, 0, 7]] {
        let mut out = [9; raw::ARGUMENT_SIZE];
        assert_eq!(raw::argument(bytes, 0, 1, false, &mut out).number, raw::DONE);
        assert_eq!(out[raw::ARGUMENT_NAME_ENDED..], [raw::ENDED_NONE; 3]);
    }
}

#[test]
fn of_a_filtered_message_two_numbers() {
    // application ids: only X
    let filter = b"\x02\0\x04X\0\0\0";
    let mut out = [9; raw::MESSAGE_SIZE];
    assert_eq!(raw::message(b"\x21\0\0\x12\x40\0APP\0CTX\0\0\0\0\0", filter, false, &mut out).number, raw::DONE);
    assert_eq!(out[..2], [1, 4]);
    assert_eq!(out[2..], [9; raw::MESSAGE_SIZE - 2]);
}

#[test]
fn in_text() {
    let answer = |line: &str| host::text::answer(line).unwrap();
    let headers = "2100000e41014142434443545800";
    let item = "0 item used=25 sh=- ver=1 end=L ctr=0 plen=0 ecu=- ses=- ts=- ext=v1,n1,log:4,.41424344@6+4,.435458@10+3 \
                pay=V(14-25)[14-25 U8,0,1,0 name=.@22+0 unit=.41@22+1 fp=- u8:7]";
    assert_eq!(answer(&format!("msg 0 - {headers}410800000000020041c307")), item);
    assert_eq!(answer(&format!("why msg 0 - {headers}410800000000020041c307")), format!("{item}{{s,u,-}} ends=-,-,s,z"));
    let two = ["0 used=4 [0-1 U8,0,0,0 name=- unit=- fp=- u8:7]", "[1-4 Str,0,0,0 name=- unit=- fp=- s:41@3+1]"];
    assert_eq!(answer("args L 41,200 07010041"), two.concat());
    assert_eq!(answer("why args L 41,200 07010041"), format!("{}{{-,-,-}}{}{{-,-,s}}", two[0], two[1]));
    assert_eq!(answer("why args L 200 0200c328"), "3 6");
    assert_eq!(answer("why msg 0 - 20070003"), "3 1");
    for line in ["why", "why fwd 44", "why why msg 0 - 20", "msg why 0 - 20"] {
        assert_eq!(host::text::answer(line), None);
    }
}
