//! The library's append against the model: every answer, and every byte of the buffer afterwards.

use ringlog_tests::answers::{done, refusal};
use ringlog_tests::far::{Far, LIMIT};
use ringlog_tests::logs::{self, LONGEST_ENTRY, LONGEST_LOG, MASKS};
use ringlog_tests::memory::Memory;
use ringlog_tests::model::{item, Log};
use ringlog_tests::random::Random;
use ringlog_tests::ringlog::Count;
use ringlog_tests::{model, refused, ringlog};

/// Appends in the buffer, which has other bytes around it. The answer and all these bytes are held
/// to the model's.
fn append(buffer: &mut [u8], used: usize, item: &[u8], case: &str) -> Count {
    let mut memory = Memory::among(0x5a, buffer);
    let mut expected = memory.clone();
    let answer = ringlog::append(memory.lent_mut(), used, item);
    let expected_answer = model::append(expected.lent_mut(), used, item);
    let shown = || {
        let log = &buffer[..used.min(buffer.len())];
        let last = &log[log.len().saturating_sub(LONGEST_ENTRY)..];
        let len = buffer.len();
        format!("{case}: {item:02x?} at {used} of {len} bytes, behind {last:02x?}")
    };
    assert_eq!(answer, expected_answer.into(), "{}", shown());
    if let Some(place) = memory.other_byte(&expected) {
        panic!("byte {place} is not the model's; {}", shown());
    }
    buffer.copy_from_slice(memory.lent());
    answer
}

/// The log, and behind it random bytes as room.
fn with_room(log: &[u8], room: usize, random: &mut Random) -> Vec<u8> {
    [log, &random.bytes(room)].concat()
}

#[test]
fn every_log_of_0_to_300_random_values_grows_as_the_model_writes_it() {
    let mut random = Random::new(1);
    let mut log = Log::default();
    let mut buffer = random.bytes(300 * LONGEST_ENTRY);
    for n in 0..=300 {
        let used = log.bytes().len();
        random.fill(&mut buffer[used..]);
        let value = logs::value(&mut random);
        log.push(&value);
        let answer = append(&mut buffer, used, &value, &format!("entry {}", n + 1));
        assert_eq!(answer, done(log.bytes().len()), "entry {}", n + 1);
        assert_eq!(&buffer[..log.bytes().len()], log.bytes(), "entry {}", n + 1);
    }
}

#[test]
fn a_log_grows_from_nothing_to_4096_values_of_all_kinds_as_document_01_writes_it() {
    let mut random = Random::new(2);
    let mut log = Log::default();
    let mut buffer = vec![0xff; LONGEST_LOG];
    let mut used = 0;
    for i in 1..=4_096 {
        let value = logs::value(&mut random);
        log.push(&value);
        let answer = ringlog::append(&mut buffer, used, &value);
        assert_eq!(answer, done(log.bytes().len()), "entry {i}");
        used = answer.value as usize;
    }
    assert!(buffer[..used] == *log.bytes());
    assert!(buffer[used..].iter().all(|&byte| byte == 0xff));
}

#[test]
fn append_at_4095_works_with_room_exactly_and_at_4096_gives_4_with_room_or_without() {
    let mut random = Random::new(3);
    let log = logs::tickets(4_096, &mut random);
    assert_eq!(log.bytes().len(), 2_097_152);
    let last = log.end(4_095);
    let ticket = &log.bytes()[last + 5..last + 5 + 49];
    assert_eq!(log.bytes().len() - last, LONGEST_ENTRY);

    let mut short = with_room(&log.bytes()[..last], LONGEST_ENTRY - 1, &mut random);
    let answer = append(&mut short, last, ticket, "one byte less");
    assert_eq!(answer, refusal(5));

    let mut buffer = with_room(&log.bytes()[..last], LONGEST_ENTRY, &mut random);
    let answer = append(&mut buffer, last, ticket, "room exactly");
    assert_eq!(answer, done(2_097_152));
    assert!(buffer == log.bytes());

    for room in [0, 1, LONGEST_ENTRY, 2 * LONGEST_ENTRY] {
        let mut full = with_room(log.bytes(), room, &mut random);
        let answer = append(&mut full, 2_097_152, ticket, "a full log");
        assert_eq!(answer, refusal(4), "room of {room} bytes");
    }
}

#[test]
fn the_first_tap_into_52_bytes_works_and_into_51_gives_5() {
    let mut random = Random::new(4);
    let tap = logs::tap(&mut random);
    let mut buffer = random.bytes(52);
    assert_eq!(append(&mut buffer, 0, &tap, "52 bytes"), done(52));
    assert_eq!(buffer, Log::of(&[&tap]).bytes());
    for len in 0..52 {
        let mut buffer = random.bytes(len);
        let answer = append(&mut buffer, 0, &tap, "too short");
        assert_eq!(answer, refusal(5), "{len} bytes");
    }
}

#[test]
fn room_exactly_is_enough_and_a_byte_less_gives_5_for_every_kind_and_each_of_the_first_entries() {
    let mut random = Random::new(5);
    for n in 0..=33 {
        let log = logs::log(n, &mut random);
        let used = log.bytes().len();
        for kind in item::VALUES {
            let value = logs::value_of(kind, &mut random);
            let len = 43 + value.len() + 70 * n.count_ones() as usize;
            let case = format!("{n} values, then kind {kind:#04x}");
            let mut buffer = with_room(log.bytes(), len, &mut random);
            let answer = append(&mut buffer, used, &value, &case);
            assert_eq!(answer, done(used + len), "{case}");
            for short in [0, 1, len - 1] {
                let mut buffer = with_room(log.bytes(), short, &mut random);
                let answer = append(&mut buffer, used, &value, &case);
                assert_eq!(answer, refusal(5), "{case}, room of {short} bytes");
            }
        }
    }
}

/// The bytes before used, and how many entries they open with.
struct Before {
    name: String,
    bytes: Vec<u8>,
    opens_with: Option<usize>,
}

fn all_before(random: &mut Random) -> Vec<Before> {
    let mut list = Vec::new();
    let mut put = |name: String, bytes, opens_with| {
        list.push(Before {
            name,
            bytes,
            opens_with,
        })
    };
    for n in [0, 1, 2, 3, 8] {
        let log = logs::log(n, random);
        put(format!("{n} values"), log.bytes().to_vec(), Some(n));
    }
    for (index, offset) in [(2, 1), (4_095, 70), (4_096, 1), (4_096, 5_000)] {
        let forged = logs::forged(index, offset, random);
        put(format!("{index} forged at {offset}"), forged, Some(index));
    }
    for (name, bytes) in refused::not_opening(random) {
        put(name, bytes, None);
    }
    list
}

/// The first refusal in the order 1, 3, 6, 4, 5, or 0.
fn first_refusal(before: &Before, room: usize, used: usize, value: &[u8], is_value: bool) -> u32 {
    match before.opens_with {
        _ if used > before.bytes.len() + room => 1,
        _ if !is_value => 3,
        None => 6,
        Some(4_096) => 4,
        Some(n) if 43 + value.len() + 70 * n.count_ones() as usize > room => 5,
        Some(_) => 0,
    }
}

/// Each refusal alone, every two of them together, and more: all kinds of bytes before used, value
/// items and others, rooms and numbers for used, each with each.
#[test]
fn the_first_refusal_in_the_order_1_3_6_4_5_counts_and_writes_nothing() {
    let mut random = Random::new(6);
    let good = item::VALUES.map(|kind| (logs::value_of(kind, &mut random), true));
    let bad = refused::no_values().into_iter().map(|item| (item, false));
    let items: Vec<_> = good.into_iter().chain(bad).collect();
    for before in all_before(&mut random) {
        for room in [0, 51, 52, LONGEST_ENTRY - 1, LONGEST_ENTRY] {
            let buffer = with_room(&before.bytes, room, &mut random);
            let (true_used, above) = (before.bytes.len(), buffer.len() + 1);
            for used in [true_used, above, (1 << 32) + 52, (1 << 63) + 1, usize::MAX] {
                for (item, is_value) in &items {
                    let expected = first_refusal(&before, room, used, item, *is_value);
                    let mut after = buffer.clone();
                    let answer = ringlog::append(&mut after, used, item);
                    let name = &before.name;
                    let shown = || format!("{name}, room {room}, used {used}, {item:02x?}");
                    assert_eq!(answer.number, expected, "{}", shown());
                    if expected != 0 {
                        assert_eq!(answer.value, 0, "{}", shown());
                        assert!(after == buffer, "written: {}", shown());
                    }
                }
            }
        }
    }
}

#[test]
fn no_lower_32_bits_of_used_are_taken_for_it() {
    let mut random = Random::new(7);
    let log = logs::taps(1, &mut random);
    let tap = logs::tap(&mut random);
    for high in [1 << 32, 1 << 33, 1 << 48, 1 << 63, !0 << 32] {
        for low in [0, 52] {
            let mut buffer = with_room(log.bytes(), LONGEST_ENTRY, &mut random);
            let answer = append(&mut buffer, high + low, &tap, "beyond 32 bits");
            assert_eq!(answer, refusal(1), "used {high:#x} + {low}");
        }
    }
}

#[test]
fn used_0_is_an_empty_log_whatever_the_buffer_holds() {
    let mut random = Random::new(8);
    let mut old = logs::log(20, &mut random).bytes().to_vec();
    for _ in 0..20 {
        let value = logs::value(&mut random);
        let answer = append(&mut old, 0, &value, "over old bytes");
        assert_eq!(answer, done(43 + value.len()));
    }
}

/// The two-buffer rule: one length, one used, one value item, the same last entry.
#[test]
fn older_bytes_change_neither_the_answer_nor_the_bytes_written() {
    let mut random = Random::new(9);
    for n in 2..=200 {
        let log = logs::log(n, &mut random);
        let value = logs::value(&mut random);
        let used = log.bytes().len();
        let mut first = with_room(log.bytes(), LONGEST_ENTRY, &mut random);
        let mut second = random.bytes(first.len());
        let last = log.end(n - 1)..used;
        second[last.clone()].copy_from_slice(&log.bytes()[last]);
        let case = format!("{n} values");
        let answer = append(&mut first, used, &value, &case);
        assert_eq!(append(&mut second, used, &value, &case), answer);
        let end = answer.value as usize;
        assert!(end > used, "{case}: {answer:?}");
        assert_eq!(first[used..end], second[used..end], "{case}");
    }
}

#[test]
fn behind_a_forged_last_entry_of_any_index_the_entry_is_the_models() {
    let mut random = Random::new(10);
    for index in 2..=4_096 {
        let offset = 1 + random.up_to(300);
        let log = logs::forged(index, offset, &mut random);
        let value = logs::value(&mut random);
        let mut buffer = with_room(&log, LONGEST_ENTRY, &mut random);
        let case = format!("index {index} at {offset}");
        let answer = append(&mut buffer, log.len(), &value, &case);
        let number = if index == 4_096 { 4 } else { 0 };
        assert_eq!(answer.number, number, "{case}");
    }
}

#[test]
fn each_bent_byte_of_the_last_entry_gives_what_the_model_gives() {
    let mut random = Random::new(11);
    let mut opened = 0;
    for n in 1..=16 {
        let log = logs::log(n, &mut random);
        let value = logs::value(&mut random);
        let used = log.bytes().len();
        let mut buffer = with_room(log.bytes(), 400, &mut random);
        for at in log.end(n - 1)..used {
            for mask in MASKS {
                let mut bent = buffer.clone();
                bent[at] ^= mask;
                let case = format!("{n} values, byte {at} bent with {mask:#04x}");
                opened += u32::from(append(&mut bent, used, &value, &case).number == 0);
            }
            random.fill(&mut buffer[used..]);
        }
    }
    // Value bodies, digests and some left offsets may be anything, so many of these open.
    assert!(opened > 1_000, "{opened}");
}

/// A left offset need only be below its entry's own offset.
#[test]
fn a_left_offset_of_51_opens_and_of_52_does_not_behind_a_tap() {
    let mut random = Random::new(12);
    let log = logs::taps(2, &mut random);
    let tap = logs::tap(&mut random);
    for (left_offset, number) in [(0, 0), (51, 0), (52, 6)] {
        let mut buffer = with_room(log.bytes(), LONGEST_ENTRY, &mut random);
        buffer[101..105].copy_from_slice(&item::four_bytes(left_offset));
        let answer = append(&mut buffer, 174, &tap, "two taps");
        assert_eq!(answer.number, number, "left offset {left_offset}");
    }
}

/// Offsets have four bytes. Behind a last entry just below 2^32 an append works, and what it wrote
/// does not open.
#[test]
fn a_last_entry_opens_below_2_to_the_32_and_not_from_there_on() {
    const WINDOW: usize = LIMIT - 4_096;
    let mut random = Random::new(13);
    let mut far = Far::forged(&mut random);
    let value = logs::value(&mut random);
    for (offset, number) in [(LIMIT - 1, 0), (LIMIT, 6), (LIMIT + 1, 6)] {
        let renew = |far: &mut Far| {
            far.buffer[WINDOW..].fill(0);
            far.put(offset)
        };
        let used = renew(&mut far);
        let expected_answer = model::append(far.buffer, used, &value);
        let expected = far.buffer[WINDOW..].to_vec();
        renew(&mut far);
        let answer = ringlog::append(far.buffer, used, &value);
        assert_eq!(answer, expected_answer.into(), "a last entry at {offset}");
        assert_eq!(answer.number, number, "a last entry at {offset}");
        assert!(far.buffer[WINDOW..] == expected, "a last entry at {offset}");
        if number == 0 {
            let again = ringlog::append(far.buffer, answer.value as usize, &value);
            assert_eq!(again, refusal(6), "behind the entry written at {used}");
        }
    }
}
