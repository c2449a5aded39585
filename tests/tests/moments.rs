//! Each rule of the check at its moment: number, place, and which of two comes first.
#![allow(missing_docs)]

mod common;

use cellfacet_tests::encode::Encoder;
use cellfacet_tests::generate::valid::of_length;
use cellfacet_tests::generate::Random;
use common::{asset, bare, case_a, checked, credential, head, input, mint_output};
use common::{operation, operations_of, output, owners, states_of};

/// A list of one output, then no input, no memo and no credential.
fn one_output(output: &[u8]) -> Vec<u8> {
    head(0).list(&[output]).u32(0).u32(0).u32(0).done()
}

fn states(states: &[Vec<u8>]) -> Vec<u8> {
    asset().list(states).u32(0).done()
}

fn state(fx_id: u32, outputs: &[Vec<u8>]) -> Vec<u8> {
    Encoder::new().u32(fx_id).list(outputs).done()
}

#[test]
fn length_comes_before_everything() {
    let mut random = Random::new(1);
    assert_eq!(checked(&of_length(&mut random, 65_536)), "0 65536");
    assert_eq!(checked(&of_length(&mut random, 65_537)), "1 0");
    assert_eq!(checked(&[1; 65_537]), "1 0");
    assert_eq!(checked(&[1; 65_536]), "3 0");
}

#[test]
fn a_cut_is_placed_at_the_start_of_its_field() {
    let a = case_a();
    let fields = [
        0, 2, 6, 10, 42, 46, 78, 82, 90, 98, 102, 106, 126, 146, 150, 182, 186, 218, 222, 230,
        234, 238, 242, 246, 250, 254, 258, 262, 327, 392,
    ];
    for length in 0..a.len() {
        let field = fields.iter().rfind(|&&field| field <= length).expect("a field");
        assert_eq!(checked(&a[..length]), format!("2 {field}"), "cut at {length}");
    }
}

#[test]
fn a_huge_count_ends_where_its_elements_do() {
    assert_eq!(checked(&head(0).u32(u32::MAX).done()), "2 46");
    assert_eq!(checked(&bare(0).u32(u32::MAX).done()), "12 54");
    assert_eq!(checked(&bare(2).u32(u32::MAX).raw(&operation(&[])).done()), "2 129");
}

#[test]
fn lists_that_may_be_empty() {
    assert_eq!(checked(&bare(0).u32(0).done()), "0 58");
    assert_eq!(checked(&states(&[state(0, &[])])), "0 77");
    let unowned = Encoder::new().raw(&[0; 32]).u32(0).u32(12).u32(0).u32(0).u32(0).u32(0);
    let blank = credential(14, &[]);
    let signed = bare(2).list(&[unowned.done()]).list(&[blank]).done();
    assert_eq!(checked(&signed), format!("0 {}", signed.len()));
}

#[test]
fn lists_that_need_an_element() {
    assert_eq!(checked(&asset().u32(0).u32(0).done()), "11 61");
    assert_eq!(checked(&bare(2).u32(0).u32(0).done()), "11 54");
    for type_id in [3, 4] {
        assert_eq!(checked(&bare(type_id).raw(&[0; 32]).u32(0).u32(0).done()), "11 86");
    }
}

#[test]
fn unknown_types() {
    assert_eq!(checked(&bare(5).u32(0).done()), "4 2");
    assert_eq!(checked(&bare(u32::MAX).u32(0).done()), "4 2");
    for type_id in [0, 5, 6, 10, 11] {
        let other = Encoder::new().raw(&[1; 32]).u32(type_id).done();
        assert_eq!(checked(&one_output(&other)), "4 78");
    }
    let mint = Encoder::new().raw(&[1; 32]).u32(0).u32(8).done();
    assert_eq!(checked(&bare(2).list(&[mint]).done()), "4 94");
    let mut other = input(1, 0, 0, &[]);
    other[71] = 7;
    assert_eq!(checked(&head(0).u32(0).list(&[other]).done()), "4 118");
}

#[test]
fn outputs_of_an_initial_state_by_its_fx_id() {
    let nft = Encoder::new().u32(10).u32(0).raw(&owners(0, 0, &[])).done();
    let payload = Encoder::new().u32(11).u32(0).string(b"x").raw(&owners(0, 0, &[])).done();
    let both = [state(0, &[mint_output(0)]), state(1, &[nft.clone(), payload])];
    let length = states(&both).len();
    assert_eq!(checked(&states(&both)), format!("0 {length}"));
    assert_eq!(checked(&states(&[state(0, &[nft])])), "4 73");
    assert_eq!(checked(&states(&[state(1, &[mint_output(0)])])), "4 73");
}

#[test]
fn fx_ids_known_before_their_order() {
    let pair = |first, second| states(&[state(first, &[]), state(second, &[])]);
    assert_eq!(checked(&pair(1, 2)), "4 73");
    assert_eq!(checked(&pair(1, 0)), "6 73");
    assert_eq!(checked(&pair(1, 1)), "6 73");
    assert_eq!(checked(&pair(0, 1)), "0 85");
    assert_eq!(checked(&asset().u32(2).u32(1).u32(0).u32(1).done()), "6 73");
}

#[test]
fn the_threshold_comes_before_an_address() {
    let equal = owners(0, 3, &[[1; 20]; 2]);
    assert_eq!(checked(&one_output(&output(1, 1, &equal))), "7 98");
    assert_eq!(checked(&one_output(&output(1, 0, &equal))), "5 82");
    assert_eq!(checked(&one_output(&output(1, 1, &owners(0, 2, &[[1; 20]; 2])))), "6 126");
    assert_eq!(checked(&one_output(&output(1, 1, &owners(0, 1, &[])))), "7 98");
    // The count itself must be there before the threshold can be judged.
    let cut = head(0).u32(1).raw(&[0; 32]).u32(7).u64(1).u64(0).u32(9).raw(&[0; 3]);
    assert_eq!(checked(&cut.done()), "2 102");
}

/// A transaction for each place where owners stand, accepted if these owners are; and the
/// owners' place in it.
fn owned(owners: &[u8]) -> Vec<(Vec<u8>, usize)> {
    let output = output(1, 1, owners);
    let exported = bare(4).raw(&[0; 32]).list(&[&output]).u32(0).done();
    let mut owned = vec![(one_output(&output), 90), (exported, 134)];
    owned.extend(operations_of(owners).map(|(operation, place)| {
        (bare(2).list(&[operation]).list(&[credential(14, &[])]).done(), 58 + place)
    }));
    owned.extend(states_of(owners).map(|(state, place)| (states(&[state]), 65 + place)));
    owned
}

const ADDRESSES: [[u8; 20]; 3] = [[1; 20], [2; 20], [3; 20]];

#[test]
fn thresholds_that_the_number_of_addresses_allows() {
    for (threshold, count) in [(0, 0), (1, 1), (1, 2), (2, 2), (1, 3), (2, 3), (3, 3)] {
        for (bytes, _) in owned(&owners(0, threshold, &ADDRESSES[..count])) {
            assert_eq!(checked(&bytes), format!("0 {}", bytes.len()), "{threshold} of {count}");
        }
    }
}

#[test]
fn thresholds_above_the_number_of_addresses_and_0_with_addresses() {
    let above = [(1, 0), (2, 1), (3, 2), (4, 3), (u32::MAX, 0), (0x8000_0000, 3)];
    for (threshold, count) in above.into_iter().chain([(0, 1), (0, 2), (0, 3)]) {
        for (bytes, place) in owned(&owners(0, threshold, &ADDRESSES[..count])) {
            let refusal = format!("7 {}", place + 8);
            assert_eq!(checked(&bytes), refusal, "{threshold} of {count}");
        }
    }
}

#[test]
fn a_threshold_of_0_is_judged_when_the_address_count_is_read() {
    for (bytes, place) in owned(&owners(0, 0, &[[1; 20]; 2])) {
        let refusal = format!("7 {}", place + 8);
        // Before the second address, which is not in order, and before the first.
        assert_eq!(checked(&bytes), refusal);
        assert_eq!(checked(&bytes[..place + 16]), refusal);
        assert_eq!(checked(&bytes[..place + 15]), format!("2 {}", place + 12));
    }
    // With a threshold that is allowed, the addresses are what is wrong.
    for (bytes, place) in owned(&owners(0, 1, &[[1; 20]; 2])) {
        assert_eq!(checked(&bytes), format!("6 {}", place + 36));
        assert_eq!(checked(&bytes[..place + 16]), format!("2 {}", place + 16));
    }
}

#[test]
fn a_threshold_beside_a_huge_address_count() {
    let huge = |threshold| Encoder::new().u64(0).u32(threshold).u32(u32::MAX).done();
    for (bytes, place) in owned(&huge(0)) {
        assert_eq!(checked(&bytes), format!("7 {}", place + 8));
    }
    for (bytes, place) in owned(&huge(u32::MAX)) {
        assert_eq!(checked(&bytes[..place + 16]), format!("2 {}", place + 16));
    }
}

#[test]
fn outputs_are_ordered_after_their_own_rules() {
    let two = |second: &[u8]| {
        let first = output(2, 1, &owners(0, 0, &[]));
        head(0).list(&[&first, second]).u32(0).u32(0).u32(0).done()
    };
    assert_eq!(checked(&two(&output(1, 1, &owners(0, 0, &[])))), "6 106");
    assert_eq!(checked(&two(&output(1, 0, &owners(0, 0, &[])))), "5 142");
    assert_eq!(checked(&two(&output(1, 1, &owners(0, 0, &[[1; 20]])))), "7 158");
    assert_eq!(checked(&two(&output(1, 1, &owners(0, 1, &[[1; 20]; 2])))), "6 186");
    assert_eq!(checked(&two(&output(2, 1, &owners(0, 0, &[])))), "0 178");
    assert_eq!(checked(&two(&output(3, 1, &owners(0, 0, &[])))), "0 178");
}

#[test]
fn each_state_orders_its_own_outputs() {
    let later = state(1, &[]);
    let descending = [mint_output(2), mint_output(1)];
    assert_eq!(checked(&states(&[state(0, &descending), later])), "6 93");
    let equal = [mint_output(2), mint_output(2)];
    assert_eq!(checked(&states(&[state(0, &equal)])), "0 117");
}

#[test]
fn inputs_are_ordered_when_the_index_is_read() {
    let two = |second: Vec<u8>| head(0).u32(0).list(&[input(1, 5, 1, &[]), second]).done();
    for (txid, index) in [(1, 5), (1, 4), (0, 6)] {
        assert_eq!(checked(&two(input(txid, index, 0, &[]))), "6 134");
        // Cut behind the index, the order still answers; inside it, the cut does.
        assert_eq!(checked(&two(input(txid, index, 0, &[]))[..170]), "6 134");
        assert_eq!(checked(&two(input(txid, index, 0, &[]))[..169]), "2 166");
    }
    assert_eq!(checked(&two(input(1, 0x8000_0000, 0, &[]))), "5 206");
    assert_eq!(checked(&two(input(2, 0, 0, &[]))), "5 206");
}

#[test]
fn imported_inputs_are_a_list_of_their_own() {
    let base = head(3).u32(0).list(&[input(9, 9, 1, &[])]).u32(0).raw(&[0; 32]);
    let imported = base.list(&[input(1, 0, 1, &[]), input(1, 1, 1, &[])]);
    let signed = imported.list(&vec![credential(9, &[]); 3]).done();
    assert_eq!(checked(&signed), format!("0 {}", signed.len()));
}

#[test]
fn indices_are_unsigned_and_strictly_increase() {
    let one = |indices: &[u32]| head(0).u32(0).list(&[input(1, 0, 1, indices)]).u32(0).done();
    assert_eq!(checked(&one(&[1, 0x8000_0000, u32::MAX])), "2 150");
    assert_eq!(checked(&one(&[3, 3])), "6 138");
    assert_eq!(checked(&one(&[0x8000_0000, 1])), "6 138");
}

#[test]
fn pairs_of_an_operation() {
    let two = |first: (u8, u32), second: (u8, u32)| {
        let pairs = Encoder::new().raw(&[0; 32]).u32(2);
        let pairs = pairs.raw(&[first.0; 32]).u32(first.1).raw(&[second.0; 32]).u32(second.1);
        bare(2).u32(1).raw(&pairs.done()).u32(99).done()
    };
    assert_eq!(checked(&two((1, 5), (1, 6))), "4 166");
    assert_eq!(checked(&two((1, 5), (1, 5))), "6 130");
    assert_eq!(checked(&two((1, 5), (0, 6))), "6 130");
    assert_eq!(checked(&two((1, 5), (1, 5))[..165]), "2 162");
}

#[test]
fn operations_and_their_owner_lists_have_no_order() {
    let owned = [owners(2, 0, &[]), owners(1, 0, &[])];
    let mint = Encoder::new().raw(&[9; 32]).u32(0).u32(12).u32(0).u32(0).u32(0);
    let operations = [mint.list(&owned).done(), operation(&[1])];
    let blank = [credential(14, &[]), credential(14, &[[0; 65]])];
    let signed = bare(2).list(&operations).list(&blank).done();
    assert_eq!(checked(&signed), format!("0 {}", signed.len()));
}

#[test]
fn lengths_of_strings() {
    let memo = |length: usize| head(0).u32(0).u32(0).string(&vec![0; length]).u32(0).done();
    assert_eq!(checked(&memo(256)), "0 314");
    assert_eq!(checked(&memo(257)), "8 50");
    let payload = |length: usize| {
        let nft = Encoder::new().u32(11).u32(0).string(&vec![0; length]);
        states(&[state(1, &[nft.raw(&owners(0, 0, &[])).done()])])
    };
    assert_eq!(checked(&payload(1024)), format!("0 {}", payload(1024).len()));
    assert_eq!(checked(&payload(1025)), "8 81");
}

#[test]
fn names_and_symbols() {
    let named = |name: &[u8], symbol: &[u8]| bare(1).text(name).text(symbol).done();
    assert_eq!(checked(&named(b"", b"s")), "8 54");
    assert_eq!(checked(&named(&[b' '; 128], b"s~ s")), "2 190");
    assert_eq!(checked(&named(&[b' '; 129], b"s")), "8 54");
    assert_eq!(checked(&named(b"n", b"")), "8 57");
    assert_eq!(checked(&named(b"n", b"12345")), "8 57");
    assert_eq!(checked(&named(b"ab\x1f\x7f", b"s")), "9 58");
    assert_eq!(checked(&named(b"n", b"\x7f")), "9 59");
    // A bad character counts only once the whole string is there.
    assert_eq!(checked(&bare(1).u16(3).raw(b"\x00\x00").done()), "2 56");
    assert_eq!(checked(&bare(1).u16(0).done()), "8 54");
}

#[test]
fn denomination() {
    let asset = |denomination| bare(1).text(b"n").text(b"s").u8(denomination);
    assert_eq!(checked(&asset(33).done()), "10 60");
    assert_eq!(checked(&asset(32).done()), "2 61");
}

#[test]
fn credentials_as_due() {
    let unsigned = || head(0).u32(0).list(&[input(1, 0, 1, &[3, 7])]).u32(0);
    assert_eq!(checked(&unsigned().u32(0).done()), "12 146");
    assert_eq!(checked(&unsigned().u32(2).done()), "12 146");
    assert_eq!(checked(&unsigned().list(&[credential(14, &[])]).done()), "4 150");
    assert_eq!(checked(&unsigned().list(&[credential(9, &[[0; 65]])]).done()), "12 154");
    let signed = unsigned().list(&[credential(9, &[[0; 65]; 2])]).done();
    assert_eq!(checked(&signed), "0 288");
    assert_eq!(checked(&[&signed[..], &[0]].concat()), "13 288");
}

#[test]
fn an_operation_takes_a_credential_of_type_14_after_the_inputs() {
    let unsigned = || {
        let base = head(2).u32(0).list(&[input(1, 0, 1, &[7])]).u32(0);
        base.list(&[operation(&[1, 2])])
    };
    let length = unsigned().done().len();
    let due = [credential(9, &[[1; 65]]), credential(14, &[[2; 65]; 2])];
    let signed = unsigned().list(&due).done();
    assert_eq!(checked(&signed), format!("0 {}", signed.len()));
    let swapped = [due[1].clone(), due[0].clone()];
    assert_eq!(checked(&unsigned().list(&swapped).done()), format!("4 {}", length + 4));
    let second = length + 4 + 73;
    let wrong = [due[0].clone(), credential(9, &[[2; 65]; 2])];
    assert_eq!(checked(&unsigned().list(&wrong).done()), format!("4 {second}"));
}
