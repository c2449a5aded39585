//! The writer's steps: their order, their rules, and the room they need.
#![allow(missing_docs)]

mod common;

use cellfacet_tests::draft::slots;
use cellfacet_tests::encode::Encoder;
use cellfacet_tests::generate::valid::{of_length, small_transaction};
use cellfacet_tests::generate::{Kind, Random, Requests};
use cellfacet_tests::independent::{make_step, Independent};
use cellfacet_tests::lines::{answer, call, unhex, Hex};
use cellfacet_tests::script::script;
use cellfacet_tests::{check, fill, Writer};
use common::{
    case_a, checked, mint_output, operation, operations_of, owners, shown, states_of,
};

const ID: &str = "0101010101010101010101010101010101010101010101010101010101010101";
const ALL: &str = "start output input operation state close memo name symbol denomination \
                   chain finish";

/// A step of this name whose arguments are right.
fn right(name: &str) -> String {
    match name {
        "start" => format!("start:0:1:{ID}"),
        "output" => format!("output:{ID}:1:0:0:-"),
        "input" => format!("input:{ID}:0:{ID}:1:-"),
        "operation" => format!("operation:{}", Hex(&operation(&[]))),
        "state" => "state:0000000000000000".into(),
        "memo" | "name" | "symbol" => format!("{name}:41"),
        "denomination" => "denomination:0".into(),
        "chain" => format!("chain:{ID}"),
        _ => name.into(),
    }
}

/// The answers of the steps, and the buffer behind them.
fn written(length: usize, steps: &str) -> (String, Vec<u8>) {
    let request = format!("write {length} {steps}");
    let line = answer(&Independent, &request).expect("a request");
    let (answers, buffer) = line.rsplit_once(' ').expect("a buffer");
    (answers.into(), unhex(buffer).expect("hex"))
}

fn answers(steps: &str) -> String {
    written(4096, steps).0
}

/// A refused step behind some steps: number and place, and no byte or state changed.
fn refused(before: &str, step: &str, expected: &str) {
    let mut buffer = vec![0xa5; 4096];
    let mut writer = Writer::new();
    for step in before.split(' ').filter(|step| !step.is_empty()) {
        let step = call(step).expect("a step").step;
        make_step(&mut writer, &mut buffer, &step).expect("a right step");
    }
    let (state, bytes) = (format!("{writer:?}"), buffer.clone());
    let call = call(step).expect("a step");
    let lent = call.lent.unwrap_or(buffer.len());
    let answer = make_step(&mut writer, &mut buffer[..lent], &call.step);
    assert_eq!(shown(answer), expected, "{step}");
    assert_eq!((format!("{writer:?}"), buffer), (state, bytes), "{step}");
}

fn start(type_id: u32) -> String {
    format!("start:{type_id}:1:{ID}")
}

/// The steps up to the type's own part.
fn base(type_id: u32) -> String {
    format!("{} close close memo:-", start(type_id))
}

#[test]
fn places_of_each_type() {
    assert_eq!(answers(&format!("{} finish", base(0))), "0 46 0 50 0 50 0 54 0 58");
    let asset = "name:41 symbol:41 denomination:0 state:0000000000000000 close finish";
    assert_eq!(
        answers(&format!("{} {asset}", base(1))),
        "0 46 0 50 0 50 0 54 0 57 0 60 0 65 0 73 0 73 0 77"
    );
    let operations = format!("{} {} close finish", base(2), right("operation"));
    assert_eq!(answers(&operations), "0 46 0 50 0 50 0 58 0 129 0 129 0 141");
    let imported = format!("{} {} {} close finish", base(3), right("chain"), right("input"));
    assert_eq!(answers(&imported), "0 46 0 50 0 50 0 54 0 90 0 174 0 174 0 186");
    let exported = format!("{} {} {} close finish", base(4), right("chain"), right("output"));
    assert_eq!(answers(&exported), "0 46 0 50 0 50 0 54 0 90 0 150 0 150 0 154");
}

#[test]
fn only_the_due_steps_are_taken() {
    let chain = right("chain");
    let states = format!("{} name:41 symbol:41 denomination:0", base(1));
    let due = [
        (String::new(), "start"),
        (start(0), "output close"),
        (format!("{} close", start(0)), "input close"),
        (format!("{} close close", start(0)), "memo"),
        (base(0), "finish"),
        (base(1), "name"),
        (format!("{} name:41", base(1)), "symbol"),
        (format!("{} name:41 symbol:41", base(1)), "denomination"),
        (states, "state close"),
        (base(2), "operation close"),
        (base(3), "chain"),
        (format!("{} {chain}", base(3)), "input close"),
        (format!("{} {chain}", base(4)), "output close"),
        (format!("{} finish", base(0)), ""),
    ];
    for (before, taken) in due {
        for name in ALL.split_whitespace() {
            if !taken.split(' ').any(|taken| taken == name) {
                refused(&before, &right(name), "16 0");
            }
        }
    }
}

#[test]
fn not_due_comes_before_every_rule_and_room() {
    refused(&start(0), &format!("input@0:{ID}:0:{ID}:0:7,3"), "16 0");
    refused(&start(0), &format!("start@0:9:1:{ID}"), "16 0");
    refused("", "finish@0", "16 0");
}

#[test]
fn rules_of_start() {
    refused("", &start(5), "4 0");
    refused("", &format!("start@45:0:1:{ID}"), "14 0");
    refused("", &format!("start@45:5:1:{ID}"), "4 0");
    assert_eq!(answers(&format!("{} {} {}", start(5), start(0), start(0))), "4 0 0 46 16 0");
}

#[test]
fn rules_of_an_output_in_the_order_of_the_check() {
    let (low, high) = ("01".repeat(20), "02".repeat(20));
    let output = |amount: u8, threshold: u8, addresses: &str| {
        format!("output:{ID}:{amount}:0:{threshold}:{addresses}")
    };
    let before = format!("{} {}", start(0), output(9, 0, "-"));
    refused(&before, &output(0, 9, &format!("{low}00")), "2 0");
    refused(&before, &output(0, 9, &low), "5 0");
    refused(&before, &output(1, 3, &format!("{high}{low}")), "7 0");
    refused(&before, &output(0, 0, &format!("{low}00")), "2 0");
    refused(&before, &output(0, 0, &low), "5 0");
    refused(&before, &output(1, 0, &format!("{high}{low}")), "7 0");
    refused(&before, &output(9, 1, &format!("{high}{low}")), "6 0");
    refused(&before, &output(9, 1, &format!("{low}{low}")), "6 0");
    refused(&before, &output(8, 0, "-"), "6 0");
    let same = format!("{before} {} {}", output(9, 0, "-"), output(9, 2, &(low + &high)));
    assert_eq!(answers(&same), "0 46 0 106 0 166 0 266");
}

/// The steps that name owners with this threshold, each with the steps that come before it.
fn owned(threshold: u32, count: usize) -> Vec<(String, String)> {
    let addresses = &[[1; 20], [2; 20]][..count];
    let owners = owners(0, threshold, addresses);
    let output = format!("output:{ID}:1:0:{threshold}:{}", Hex(&addresses.concat()));
    let exported = format!("{} {}", base(4), right("chain"));
    let states = format!("{} name:41 symbol:41 denomination:0", base(1));
    let mut owned = vec![(start(0), output.clone()), (exported, output)];
    owned.extend(
        operations_of(&owners)
            .map(|(operation, _)| (base(2), format!("operation:{}", Hex(&operation)))),
    );
    owned.extend(
        states_of(&owners).map(|(state, _)| (states.clone(), format!("state:{}", Hex(&state)))),
    );
    owned
}

#[test]
fn thresholds_in_every_step_with_owners() {
    for (threshold, count) in [(0, 0), (1, 1), (1, 2), (2, 2)] {
        for (before, step) in owned(threshold, count) {
            let (answers, _) = written(4096, &format!("{before} {step} close"));
            assert!(answers.split(' ').step_by(2).all(|number| number == "0"), "{step}");
        }
    }
    for (threshold, count) in [(1, 0), (u32::MAX, 0), (0, 1), (2, 1), (0, 2), (3, 2)] {
        for (before, step) in owned(threshold, count) {
            refused(&before, &step, "7 0");
            // The rules come before the room.
            let written = written(4096, &before).0;
            let (_, place) = written.rsplit_once(' ').expect("a place");
            refused(&before, &step.replacen(':', &format!("@{place}:"), 1), "7 0");
        }
    }
}

#[test]
fn rules_of_an_input_in_the_order_of_the_check() {
    let input = |index: u8, amount: u8, indices: &str| {
        format!("input:{ID}:{index}:{ID}:{amount}:{indices}")
    };
    let before = format!("{} close {}", start(0), input(5, 1, "3,7"));
    refused(&before, &input(5, 0, "7,3"), "6 0");
    refused(&before, &input(6, 0, "7,3"), "5 0");
    refused(&before, &input(6, 1, "7,3"), "6 0");
    refused(&before, &input(6, 1, "4294967295,2147483648"), "6 0");
    let taken = format!("{before} {}", input(6, 1, "2147483648,4294967295"));
    assert_eq!(answers(&taken), "0 46 0 50 0 142 0 234");
}

#[test]
fn imported_inputs_start_an_order_of_their_own() {
    let steps = format!(
        "{} close input:{ID}:5:{ID}:1:- close memo:- chain:{ID} input:{ID}:0:{ID}:1:- close \
         finish",
        start(3)
    );
    let (answers, buffer) = written(4096, &steps);
    assert!(answers.ends_with("0 278"), "{answers}");
    assert_eq!(checked(&buffer[..278]), "0 278");
}

#[test]
fn rules_of_elements_given_as_bytes() {
    let whole = operation(&[1, 2]);
    let given = |bytes: &[u8]| format!("operation:{}", Hex(bytes));
    for length in 0..whole.len() {
        refused(&base(2), &given(&whole[..length]), "2 0");
    }
    refused(&base(2), &given(&[&whole[..], &[0]].concat()), "13 0");
    refused(&base(2), &given(&operation(&[2, 1])), "6 0");
    let state = |fx_id: u32, outputs: &[Vec<u8>]| {
        format!("state:{}", Hex(&Encoder::new().u32(fx_id).list(outputs).done()))
    };
    let states = format!("{} name:41 symbol:41 denomination:0", base(1));
    refused(&states, "state:-", "2 0");
    refused(&states, &state(2, &[]), "4 0");
    refused(&states, &state(1, &[mint_output(0)]), "4 0");
    refused(&states, &state(0, &[mint_output(1), mint_output(0)]), "6 0");
    refused(&states, &(state(0, &[]) + "00"), "13 0");
    let second = format!("{states} {}", state(1, &[]));
    refused(&second, &state(0, &[]), "6 0");
    refused(&second, &state(1, &[]), "6 0");
    refused(&second, &state(2, &[]), "4 0");
    // The FxID's order is judged before the rest of the element is there.
    refused(&second, "state:00000001", "6 0");
}

#[test]
fn rules_of_strings_and_denomination() {
    let memo = format!("{} close close", start(0));
    refused(&memo, &format!("memo:{}", "00".repeat(257)), "8 0");
    assert!(answers(&format!("{memo} memo:{}", "00".repeat(256))).ends_with("0 310"));
    let long = "41".repeat(129);
    for name in ["name:-", &format!("name:{long}"), &format!("name:{}", "41".repeat(65_537))] {
        refused(&base(1), name, "8 0");
    }
    refused(&base(1), "name:411f", "9 0");
    refused(&base(1), "name:7f", "9 0");
    let named = format!("{} name:20", base(1));
    refused(&named, "symbol:-", "8 0");
    refused(&named, "symbol:4141414141", "8 0");
    refused(&named, "symbol:41411f41", "9 0");
    refused(&format!("{named} symbol:7e7e7e7e"), "denomination:33", "10 0");
}

#[test]
fn lists_that_need_an_element_are_not_closed_empty() {
    let states = format!("{} name:41 symbol:41 denomination:0", base(1));
    let chain = right("chain");
    for before in
        [states, base(2), format!("{} {chain}", base(3)), format!("{} {chain}", base(4))]
    {
        refused(&before, "close", "11 0");
    }
}

#[test]
fn a_buffer_shorter_than_the_bytes_written_comes_before_the_rules() {
    refused(&base(2), "close@57", "14 0");
    refused(&base(2), "close@58", "11 0");
    refused(&start(0), &format!("output@45:{ID}:0:0:9:00"), "14 0");
    refused(&start(0), &format!("output@46:{ID}:0:0:9:00"), "2 0");
    refused(&base(0), "finish@53", "14 0");
}

#[test]
fn room_comes_last() {
    refused(&start(0), "close@49", "14 0");
    refused(&start(0), &format!("output@105:{ID}:1:0:0:-"), "14 0");
    refused(&start(0), &format!("output@105:{ID}:0:0:0:-"), "5 0");
    refused(&base(0), "finish@57", "14 0");
    let full = format!("{} close@50 close@50 memo@54:- finish@58", start(0));
    assert_eq!(answers(&full), "0 46 0 50 0 50 0 54 0 58");
    let counted = format!("{} output@106:{ID}:1:0:0:-", start(0));
    assert_eq!(answers(&counted), "0 46 0 106");
}

#[test]
fn the_limit_is_room_too() {
    let bytes = of_length(&mut Random::new(2), 65_536);
    let steps = script(&bytes).expect("an accepted transaction");
    let mut texts: Vec<String> = steps.iter().map(|step| step.to_string()).collect();
    assert!(written(70_000, &texts.join(" ")).0.ends_with("0 65536"));
    // One more byte of memo, and the credential count passes the limit.
    let memo = texts.iter_mut().find(|text| text.starts_with("memo")).expect("a memo");
    memo.push_str("00");
    assert!(written(70_000, &texts.join(" ")).0.ends_with("14 0"));
}

#[test]
fn a_short_buffer_refuses_and_a_longer_one_goes_on() {
    let bytes = case_a();
    let steps = script(&bytes).expect("case A");
    for length in 0..bytes.len() {
        let mut buffer = vec![0xa5; bytes.len()];
        let mut writer = Writer::new();
        for step in &steps {
            let before = buffer.clone();
            let short = make_step(&mut writer, &mut buffer[..length], step);
            if let Err(refusal) = short {
                assert_eq!(shown(Err(refusal)), "14 0");
                assert_eq!(buffer, before);
                make_step(&mut writer, &mut buffer, step).expect("room");
            }
        }
        assert_eq!(buffer[..258], bytes[..258]);
        assert_eq!(buffer[262..], [0; 130]);
    }
}

#[test]
fn writing_a_reading_and_filling_its_signatures_gives_the_same_bytes() {
    let mut random = Random::new(17);
    for _ in 0..1000 {
        let bytes = small_transaction(&mut random);
        let read = check(&bytes).expect("an accepted transaction");
        let mut buffer = vec![0xa5; bytes.len() + random.below(3)];
        let mut writer = Writer::new();
        let mut answer = Ok(0);
        for step in script(&bytes).expect("its steps") {
            answer = make_step(&mut writer, &mut buffer, &step);
            assert!(answer.is_ok(), "{step} {answer:?}");
        }
        assert_eq!(answer, Ok(bytes.len()));
        buffer.truncate(bytes.len());
        for (slot, place) in slots(&bytes, &read).enumerate() {
            fill(&mut buffer, slot, &bytes[place..place + 65]).expect("an empty slot");
        }
        assert_eq!(buffer, bytes);
    }
}

#[test]
fn what_the_writer_finishes_is_accepted() {
    let mut finished = 0;
    for request in Requests::new(23, vec![Kind::Write]).take(3000) {
        let line = answer(&Independent, &request).expect("a request");
        let words: Vec<&str> = line.split(' ').collect();
        let steps = request.split(' ').skip(2);
        let end = steps.zip(words.chunks_exact(2)).find_map(|(step, answer)| {
            (step.starts_with("finish") && answer[0] == "0").then(|| answer[1].parse().ok())?
        });
        let Some(end) = end else { continue };
        let buffer = unhex(words[words.len() - 1]).expect("hex");
        assert_eq!(checked(&buffer[..end]), format!("0 {end}"));
        finished += 1;
    }
    assert!(finished > 1000, "{finished} finished");
}

#[test]
fn another_buffer_still_ends_safely() {
    let mut random = Random::new(29);
    for _ in 0..2000 {
        let steps = script(&small_transaction(&mut random)).expect("its steps");
        let mut writer = Writer::new();
        for step in &steps {
            let length = random.below(3000);
            let mut buffer = random.bytes(length);
            let before = buffer.clone();
            if make_step(&mut writer, &mut buffer, step).is_err() {
                assert_eq!(buffer, before);
            }
        }
    }
}
