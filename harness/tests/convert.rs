//! 02's job 7 on the reference implementation: its mover, here the converter.

use harness::random::Random;
use harness::reference::checksum;
use harness::reference::convert::convert;
use harness::reference::table::{self, Form};
use harness::{generate, sample};
use std::fs;
use std::path::Path;

/// The file in the form wanted, into a buffer some bytes longer than needed, which stay.
fn converted(file: &[u8], wanted: Form) -> Vec<u8> {
    let mut out = vec![0xaa; table::MAX_FILE + 9];
    let length = convert(file, wanted, &mut out).unwrap();
    assert!(out[length..].iter().all(|byte| *byte == 0xaa));
    out.truncate(length);
    out
}

/// The refusal of a call, which leaves its buffer.
fn refused(file: &[u8], wanted: Form, room: usize) -> u8 {
    let mut out = vec![0xaa; room];
    let refusal = convert(file, wanted, &mut out).unwrap_err();
    assert!(out.iter().all(|byte| *byte == 0xaa));
    refusal
}

/// T in form two, these its unary costs.
fn t_in_form_two(unary: &[u16; 4]) -> Vec<u8> {
    table::file_of(&sample::stream_in_form_two(&[2, 2], unary, &[5, 3, 2, 4]))
}

#[test]
fn t_there_and_back() {
    let t = table::file_of(&sample::t());
    let moved = converted(&t, Form::Two);
    assert_eq!(moved.len(), 512);
    let stream = [200, 2, 2, 2, 0, 0, 0, 0, 0, 0, 0, 0, 5, 0, 3, 0, 2, 0, 4, 0];
    assert_eq!(moved[2..4], [20, 0]);
    assert_eq!(moved[4..24], stream);
    assert_eq!(moved, t_in_form_two(&[0; 4]));
    assert_eq!(converted(&moved, Form::One), t);
}

#[test]
fn a_file_in_the_form_wanted_comes_out_as_it_went_in() {
    let t = table::file_of(&sample::t());
    assert_eq!(converted(&t, Form::One), t);
    for unary in [[0; 4], [1, 2, 3, 60_000]] {
        let file = t_in_form_two(&unary);
        assert_eq!(converted(&file, Form::Two), file);
    }
}

#[test]
fn back_with_a_unary_cost_is_refused() {
    for place in 0..4 {
        for cost in [1, 255, 256, 60_000] {
            let mut unary = [0; 4];
            unary[place] = cost;
            assert_eq!(refused(&t_in_form_two(&unary), Form::One, 512), 18, "{unary:?}");
        }
    }
    // costs of pairs play no part, forbidden ones either
    let pairs = table::file_of(&sample::stream_in_form_two(&[1, 2], &[0; 3], &[65_535, 60_000]));
    assert_eq!(converted(&pairs, Form::One), table::file_of(&sample::stream(&[1, 2], &[65_535, 60_000])));
}

/// Each refusal with later ones in the file too.
#[test]
fn refusals_in_order() {
    let file_of = table::file_of;
    let priced = sample::stream_in_form_two(&[2, 2], &[1, 0, 0, 0], &[5, 3, 2, 4]);
    for wanted in [Form::One, Form::Two] {
        for file in [&[][..], &[0; 511], &[0; 513], &[0; 124 * 512]] {
            assert_eq!(refused(file, wanted, 0), 1, "{} bytes", file.len());
        }
        // a block's number, its check and an unused byte wrong
        let mut file = file_of(&priced);
        (file[0], file[509]) = (1, 1);
        assert_eq!(refused(&file, wanted, 0), 4);
        let seal = |file: &mut Vec<u8>| {
            let check = checksum::sum(&file[..510]);
            file[510..].copy_from_slice(&check.to_le_bytes());
        };
        seal(&mut file);
        assert_eq!(refused(&file, wanted, 0), 2);
        file[0] = 0;
        seal(&mut file);
        assert_eq!(refused(&file, wanted, 0), 3);
        assert_eq!(refused(&file_of(&[200, 17, 1]), wanted, 0), 5);
        assert_eq!(refused(&file_of(&[200, 2, 17]), wanted, 0), 5);
        assert_eq!(refused(&file_of(&[200]), wanted, 0), 6);
        assert_eq!(refused(&file_of(&[200, 2, 16]), wanted, 0), 6);
        let mut long = sample::stream_in_form_two(&[1, 1], &[60_001, 1], &[60_001]);
        assert_eq!(refused(&file_of(&long), wanted, 0), 7);
        long.push(0);
        assert_eq!(refused(&file_of(&long), wanted, 0), 6);
        for unary in [60_001, 65_534, 65_535] {
            assert_eq!(refused(&file_of(&sample::stream_in_form_two(&[1], &[unary], &[])), wanted, 0), 7);
        }
        assert_eq!(refused(&file_of(&priced), wanted, 511), 13);
        assert_eq!(refused(&file_of(&sample::t()), wanted, 511), 13);
    }
    assert_eq!(refused(&file_of(&priced), Form::One, 512), 18);
}

/// 02: "13 for the blocks needed", which are those of the result.
#[test]
fn the_room_is_that_of_the_result() {
    let sizes = [9, 11, 4, 2];
    let pairs = [9; 9 * 11 + 9 * 4 + 9 * 2 + 11 * 4 + 11 * 2 + 4 * 2];
    let one = sample::stream(&sizes, &pairs);
    let two = sample::stream_in_form_two(&sizes, &[0; 26], &pairs);
    assert_eq!((one.len(), two.len()), (459, 512));
    let (one, two) = (table::file_of(&one), table::file_of(&two));
    assert_eq!((one.len(), two.len()), (512, 1_024));
    assert_eq!(refused(&one, Form::Two, 1_023), 13);
    assert_eq!(convert(&one, Form::Two, &mut [0; 1_024]), Ok(1_024));
    assert_eq!(refused(&two, Form::One, 511), 13);
    assert_eq!(convert(&two, Form::One, &mut [0; 512]), Ok(512));
    assert_eq!(refused(&two, Form::Two, 1_023), 13);
    // 13 comes before 18
    let priced = table::file_of(&sample::stream_in_form_two(&sizes, &[1; 26], &pairs));
    assert_eq!(refused(&priced, Form::One, 511), 13);
    assert_eq!(refused(&priced, Form::One, 512), 18);
}

#[test]
fn the_largest() {
    let pairs: Vec<u16> = (0..30_720).map(|k| k % 60_001).collect();
    let one = table::file_of(&sample::stream(&[16; 16], &pairs));
    let two = table::file_of(&sample::stream_in_form_two(&[16; 16], &[0; 256], &pairs));
    assert_eq!((one.len(), two.len()), (122 * 512, 123 * 512));
    assert_eq!(converted(&one, Form::Two), two);
    assert_eq!(converted(&two, Form::One), one);
    assert_eq!(refused(&one, Form::Two, 62_975), 13);
    // 123 blocks of a stream in form one are too many, though not for check 1
    let mut long = sample::stream(&[16; 16], &pairs);
    long.resize(61_970, 0);
    assert_eq!(table::file_of(&long).len(), 62_976);
    assert_eq!(refused(&table::file_of(&long), Form::Two, 62_976), 6);
}

#[test]
fn there_and_back_gives_the_first_files_bytes() {
    let mut random = Random::new(21);
    let mut files = Vec::new();
    for entry in fs::read_dir(Path::new(env!("CARGO_MANIFEST_DIR")).join("vectors")).unwrap() {
        let path = entry.unwrap().path();
        if path.extension().is_some_and(|end| end == "table") {
            files.push(fs::read(path).unwrap());
        }
    }
    for _ in 0..2_000 {
        let n = random.between(1, 16);
        let sizes: Vec<u8> = (0..n).map(|_| random.between(1, 16) as u8).collect();
        files.push(table::file_of(&generate::stream_of(&mut random, &sizes)));
    }
    let (mut one, mut zero, mut priced) = (0, 0, 0);
    for file in files {
        let stream = sample::read(&file).unwrap();
        let costs = table::unary_costs(&stream);
        if table::form(&stream) == Form::One {
            assert_eq!(converted(&converted(&file, Form::Two), Form::One), file);
            one += 1;
        } else if costs.iter().all(|byte| *byte == 0) {
            assert_eq!(converted(&converted(&file, Form::One), Form::Two), file);
            zero += 1;
        } else {
            assert_eq!(refused(&file, Form::One, table::MAX_FILE), 18);
            priced += 1;
        }
    }
    assert!(one > 800 && zero > 100 && priced > 500, "{one}, {zero}, {priced}");
}
