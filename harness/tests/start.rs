//! A box's start from blocks on the reference implementation and, with the feature `linked`, on the Rattle library: of every sample table and each of
//! its units it comes to what reading the file, then gathering, gives; refusals in their order; a refused block handed over again.

use harness::calls::{self, Handed, Input, Outcome};
use harness::reference::start::{COSTS, MAX_BLOCKS};
use harness::reference::table::{self, BLOCK, PAYLOAD};
use harness::sample;
use harness::start::TOLD;
use std::fs;

type Implementation = fn(Input) -> Outcome;

#[cfg(not(feature = "linked"))]
const IMPLEMENTATIONS: [Implementation; 1] = [calls::reference];

#[cfg(feature = "linked")]
const IMPLEMENTATIONS: [Implementation; 2] = [calls::reference, harness::linked::linked];

/// What a box keeps: n and the sizes, with its costs; and what stands behind these where they were lent.
#[derive(PartialEq, Eq, Debug)]
struct Kept {
    head: Vec<u64>,
    costs: Vec<u8>,
    behind: Vec<u8>,
}

fn handed(file: &[u8]) -> Vec<Handed> {
    let count = file.len().div_ceil(BLOCK);
    let blocks = file.chunks(BLOCK).enumerate();
    blocks.map(|(k, block)| Handed { block: block.to_vec(), last: u8::from(k + 1 == count), again: false }).collect()
}

/// What the blocks come to, or the refusal and how many were accepted before it.
fn started(call: Implementation, own: u8, blocks: &[Handed], room: usize) -> Result<Kept, (u8, usize)> {
    let Outcome { refusal, mut numbers, lent, .. } =
        call(Input::Start { own, blocks: blocks.to_vec(), costs: vec![0xaa; room] });
    let told = numbers.split_off(numbers.len() - TOLD);
    if refusal != 0 {
        assert!(told.iter().all(|number| *number == 0));
        return Err((refusal, numbers.iter().filter(|refusal| **refusal == 0).count()));
    }
    let (costs, behind) = lent.split_at(told[0] as usize);
    Ok(Kept { head: told[1..].to_vec(), costs: costs.to_vec(), behind: behind.to_vec() })
}

/// The same by reading the whole file, then gathering.
fn gathered(call: Implementation, own: u8, file: &[u8], room: usize) -> Result<Kept, u8> {
    let read = call(Input::Read { file: file.to_vec(), stream: vec![0; table::MAX_STREAM] });
    if read.refusal != 0 {
        return Err(read.refusal);
    }
    let stream = read.lent[..read.numbers[0] as usize].to_vec();
    let Outcome { refusal, numbers, lent, .. } = call(Input::Lent { stream, own, out: vec![0xaa; room] });
    if refusal != 0 {
        return Err(refusal);
    }
    let (costs, behind) = lent.split_at(numbers[0] as usize);
    Ok(Kept { head: numbers[1..].to_vec(), costs: costs.to_vec(), behind: behind.to_vec() })
}

#[test]
fn every_sample_table_is_read_then_gathered() {
    let mut units = 0;
    for path in sample::tables() {
        let file = fs::read(&path).unwrap();
        let blocks = handed(&file);
        for call in IMPLEMENTATIONS {
            for own in 0..=17 {
                let begun = started(call, own, &blocks, COSTS + 9);
                let expected = gathered(call, own, &file, COSTS + 9);
                units += usize::from(begun.is_ok());
                assert_eq!(begun.map_err(|(refusal, _)| refusal), expected, "{} unit {own}", path.display());
            }
        }
    }
    println!("{units} units");
    assert!(units > 100);
}

/// 13 comes first, whatever the block is; 1 is a block that isn't 512 bytes; then the block's 4, 2, 3.
#[test]
fn refusals_in_order() {
    let file =
        fs::read(sample::tables().into_iter().find(|path| path.ends_with("ten-by-four.table")).unwrap()).unwrap();
    let blocks = handed(&file);
    let last = blocks.len() - 1;
    assert!(last > 1);
    for call in IMPLEMENTATIONS {
        let with = |change: &dyn Fn(&mut Vec<Handed>)| {
            let mut changed = blocks.clone();
            change(&mut changed);
            started(call, 3, &changed, COSTS).unwrap_err()
        };
        assert_eq!(started(call, 3, &blocks, COSTS - 1), Err((13, 0)));
        assert_eq!(started(call, 3, &[Handed { block: Vec::new(), last: 1, again: false }], 0), Err((13, 0)));
        assert_eq!(started(call, 3, &[Handed { block: Vec::new(), last: 1, again: false }], COSTS), Err((1, 0)));
        assert_eq!(with(&|blocks| blocks[1].block.truncate(511)), (1, 1));
        assert_eq!(with(&|blocks| blocks[last].block.push(0)), (1, last));
        assert_eq!(with(&|blocks| blocks[1].block[9] ^= 1), (4, 1));
        assert_eq!(with(&|blocks| blocks.swap(0, 1)), (2, 0));
        assert_eq!(with(&|blocks| blocks[last].last = 0), (3, last));
        assert_eq!(with(&|blocks| blocks[1].last = 1), (6, 1));
        assert_eq!(started(call, 0, &blocks, COSTS), Err((10, last)));
        assert_eq!(started(call, 11, &blocks, COSTS), Err((10, last)));
    }
}

/// 02's job 7: "at most 123 blocks". The stream is longer than n and the sizes need, which only the last block tells.
#[test]
fn one_block_too_many_is_1_and_as_many_as_may_be_6() {
    for call in IMPLEMENTATIONS {
        for (count, expected) in [(MAX_BLOCKS, (6, MAX_BLOCKS - 1)), (MAX_BLOCKS + 1, (1, MAX_BLOCKS))] {
            let mut stream = vec![0; count * PAYLOAD];
            stream[..2].copy_from_slice(&[1, 1]);
            assert_eq!(started(call, 1, &handed(&table::file_of(&stream)), COSTS), Err(expected));
        }
    }
}

/// A refused block changes nothing: each is handed over damaged, then as it is.
#[test]
fn a_refused_block_can_come_again() {
    for path in sample::tables() {
        let file = fs::read(&path).unwrap();
        let blocks = handed(&file);
        let damaged = |handed: &Handed| {
            let mut block = handed.block.clone();
            block[200] ^= 4;
            Handed { block, last: handed.last, again: true }
        };
        let twice: Vec<Handed> = blocks.iter().flat_map(|handed| [damaged(handed), handed.clone()]).collect();
        for call in IMPLEMENTATIONS {
            assert_eq!(started(call, 1, &twice, COSTS), started(call, 1, &blocks, COSTS), "{}", path.display());
        }
    }
}
