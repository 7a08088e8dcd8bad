//! Paper 01's bench examples, and those of docs/DECISIONS.md, on the Rust side.

use super::{admit, evaluate, finish, judge, parse, print};

const G: [u32; 42] = [
    1, 0, 8, 0, 0, 0, 1, 0, 8, 1, 1, 0, 1, 0, 8, 2, 0, 0, 12, 0, 8, 0, 1, 0, 11, 0, 8, 3, 2, 0, 0, 0, 8, 0, 0, 0, 14,
    0, 0, 5, 4, 0,
];

/// Of rule G, finished: from term 18 on.
const GROUP_OF_LESS: [[u32; 6]; 9] = [
    [0, 0, 8, 255, 0, 0],
    [6, 0, 0, 5, 18, 0],
    [3, 0, 0, 7, 19, 0],
    [0, 0, 8, 0, 0, 0],
    [6, 0, 0, 4, 21, 0],
    [3, 0, 0, 17, 22, 0],
    [4, 0, 0, 20, 23, 0],
    [3, 0, 0, 7, 17, 0],
    [4, 0, 0, 24, 25, 0],
];

/// t, a, c in slots 0, 1, 2 with these marks; 42 stored at a, read at c, equal to 42.
fn h(t: u32, a: u32) -> Vec<u32> {
    [
        [1, 8, 8, 0, t, 0],
        [1, 0, 8, 1, a, 0],
        [1, 0, 8, 2, 0, 0],
        [0, 0, 8, 42, 0, 0],
        [16, 8, 8, 0, 1, 3],
        [15, 0, 8, 4, 2, 0],
        [6, 0, 0, 5, 3, 0],
    ]
    .concat()
}

/// Judges with room and allowance enough, and holds the finished table to the same.
fn verdict(table: &[u32], values: &[u32]) -> (u64, u64) {
    let (mut answer, mut work) = ([0; 4], vec![7; table.len()]);
    assert_eq!(judge(table, &[], values, &[], 99, &mut work, &mut answer), 0);
    let (rule, condition) = (answer[0], answer[1]);
    let mut room = vec![7; 6 * 80_000];
    assert_eq!(finish(table, &mut room, &mut answer), 0);
    let [terms, number, last, _] = answer;
    assert_eq!(room[6 * terms as usize], 7);
    let mut work = vec![0; terms as usize];
    assert_eq!(evaluate(&room[..6 * terms as usize], values, &[], 9999, &mut work, &mut answer), 0);
    assert_eq!(u64::from(work[table.len() / 6 - 1]), rule);
    assert_eq!(u64::from(work[number as usize]), condition);
    assert_eq!(u64::from(work[last as usize]), rule & condition);
    (rule, condition)
}

#[test]
fn rule_g() {
    assert_eq!(verdict(&G, &[0, 5, 1]), (1, 1));
    assert_eq!(verdict(&G, &[1, 1, 0]), (1, 0));
    assert_eq!(verdict(&G, &[0, 5, 0]), (0, 1));
    assert_eq!(verdict(&G, &[1, 0, 1]), (1, 0));
    let (mut room, mut answer) = (vec![9; 169], [0; 4]);
    assert_eq!(finish(&G, &mut room, &mut answer), 0);
    assert_eq!(answer, [28, 26, 27, 0]);
    assert_eq!(room[6 * 18..], [&GROUP_OF_LESS.concat()[..], &[3, 0, 0, 6, 26, 0, 9]].concat());
    assert_eq!((finish(&G, &mut room[..167], &mut answer), answer), (21, [28, 0, 0, 0]));
}

#[test]
fn rule_h() {
    assert_eq!(verdict(&h(1, 0), &[9, 0, 0]), (1, 1));
    assert_eq!(verdict(&h(1, 0), &[42, 0, 2]), (1, 0));
    // The stored value must equal the one beneath, not the indexes.
    assert_eq!(verdict(&h(0, 1), &[9, 0, 0]), (1, 0));
    assert_eq!(verdict(&h(0, 1), &[42, 0, 0]), (1, 1));
    let (mut work, mut answer) = ([5; 15], [0; 4]);
    assert_eq!(judge(&h(1, 0), &[], &[9, 0, 0], &[], 0, &mut work, &mut answer), 23);
    assert_eq!((answer, work), ([1, 0, 0, 0], [5; 15]));
    assert_eq!(judge(&h(1, 0), &[], &[9, 0, 0], &[], 1, &mut work, &mut answer), 0);
    assert_eq!((answer, work), ([1, 1, 1, 0], [0, 0, 0, 42, 0, 42, 1, 0, 1, 1, 1, 0, 1, 1, 5]));
    assert_eq!(finish(&h(1, 0), &mut [0; 200], &mut answer), 0);
    assert_eq!(answer, [21, 19, 20, 0]);
}

/// Number, place or rule, and condition of rule G under a sheet.
fn under(sheet: &[u32], values: [u32; 3]) -> (u32, u64, u64) {
    let (mut work, mut answer) = ([0; 14], [0; 4]);
    let number = judge(&G, sheet, &values, &[], 0, &mut work, &mut answer);
    (number, answer[0], answer[1])
}

#[test]
fn sheets() {
    let (p1, p2) = ([0, 5, 1], [1, 1, 0]);
    assert_eq!(under(&[0, 1, 1], p2), (0, 1, 1));
    assert_eq!(under(&[0, 0, 255], p2), (0, 1, 1));
    assert_eq!(under(&[0, 2, 255], p2), (0, 1, 0));
    assert_eq!(under(&[1, 0, 63, 0, 1, 1], p2), (0, 1, 0));
    assert_eq!(under(&[0, 1, 1, 1, 0, 63], p2), (0, 1, 0));
    assert_eq!(under(&[1, 1, 2], p1), (0, 1, 0));
    assert_eq!(under(&[1, 3, 255, 0, 64, 128], p1), (0, 1, 1));
    assert_eq!(under(&[1, 0, 0, 0, 3], p1), (16, 1, 0));
    assert_eq!(under(&[1, 0, 0, 0, 3, 2, 1], p1), (16, 1, 0));
    assert_eq!(under(&[2, 0, 0], p1), (16, 0, 0));
    assert_eq!(under(&[0, 256, 256], p1), (16, 0, 0));
    assert_eq!(under(&[1, 0, 255, 1, 0, 256], p1), (16, 1, 0));
    assert_eq!(under(&[1], [256, 0, 0]), (16, 0, 0));
    // Every line of two ends, and every slot, in a table of that slot alone.
    for low in (0..256).step_by(21) {
        for high in (low..256).step_by(17) {
            for slot in 0..256 {
                let (mut work, mut answer) = ([0; 2], [0; 4]);
                let is_in = u64::from(low <= slot && slot <= high);
                assert_eq!(
                    judge(&[1, 0, 0, slot, 0, 0], &[1, low, high], &[1; 256], &[], 0, &mut work, &mut answer),
                    0
                );
                assert_eq!(answer, [1, 1 - is_in, 0, 0]);
                assert_eq!(
                    judge(&[1, 0, 0, slot, 1, 0], &[0, low, high], &[1; 256], &[], 0, &mut work, &mut answer),
                    0
                );
                assert_eq!(answer, [1, is_in, 0, 0]);
            }
        }
    }
}

/// The text of a table, in a room that is just long enough; one byte less is refused.
fn text(table: &[u32]) -> String {
    let mut answer = [0; 4];
    assert_eq!(print(table, &mut [], &mut answer), 24);
    let mut room = vec![9; answer[0] as usize];
    let needed = room.len();
    assert_eq!((print(table, &mut room[..needed - 1], &mut answer), answer[0]), (24, needed as u64));
    assert!(room.iter().all(|&byte| byte == 9));
    assert_eq!((print(table, &mut room, &mut answer), answer), (0, [needed as u64, 0, 0, 0]));
    String::from_utf8(room).expect("ASCII")
}

#[test]
fn texts() {
    let one = "(set-logic QF_ABV)\n(define-fun t0 () Bool true)\n(assert t0)\n(check-sat)\n";
    assert_eq!((text(&[0, 0, 0, 1, 0, 0]).as_str(), one.len()), (one, 72));
    let g = text(&G);
    assert!(g.contains("\n(declare-const v2 (_ BitVec 8))\n(define-fun t3 () (_ BitVec 8) (bvmul v0 v1))\n"));
    assert!(g.ends_with("\n(define-fun t6 () Bool (bvult t5 t4))\n(assert t6)\n(check-sat)\n"));
    let h = text(&h(1, 0));
    assert!(h.contains("\n(define-fun t3 () (_ BitVec 8) #b00101010)\n"));
    assert!(h.contains("\n(define-fun t4 () (Array (_ BitVec 8) (_ BitVec 8)) (store v0 v1 t3))\n"));
    let signed = [1, 0, 8, 0, 0, 0, 17, 0, 8, 0, 0, 0, 18, 0, 8, 1, 0, 0, 20, 0, 8, 2, 1, 0, 19, 0, 0, 3, 0, 0];
    let signed = text(&signed);
    assert!(signed.contains(" (bvneg v0))\n") && signed.contains(" (bvsub t1 v0))\n"));
    assert!(signed.contains(" (bvashr t2 t1))\n") && signed.contains(" Bool (bvslt t3 v0))\n"));
    let twice = text(&[1, 0, 1, 10, 0, 0, 1, 0, 0, 9, 0, 0, 1, 0, 0, 9, 0, 0]);
    assert!(twice.contains("\n(declare-const v9 Bool)\n(declare-const v10 (_ BitVec 1))\n(assert v9)\n"));
}

/// Two vectors (or a test and two), an operator, and an equality with a constant.
fn binary(op: u32, marks: [u32; 2], constant: u32) -> Vec<u32> {
    [
        [1, 0, 8, 0, marks[0], 0],
        [1, 0, 8, 1, marks[1], 0],
        [op, 0, 8, 0, 1, 0],
        [0, 0, 8, constant, 0, 0],
        [6, 0, 0, 2, 3, 0],
    ]
    .concat()
}

#[test]
fn operators() {
    assert_eq!(verdict(&binary(11, [0, 0], 44), &[200, 100]), (1, 1));
    assert_eq!(verdict(&binary(12, [0, 0], 0), &[16, 16]), (1, 1));
    assert_eq!(verdict(&binary(18, [0, 0], 254), &[3, 5]), (1, 1));
    assert_eq!(verdict(&binary(18, [0, 1], 251), &[0, 5]), (1, 0));
    let negated = |mark| [1, 0, 8, 0, mark, 0, 17, 0, 8, 0, 0, 0, 0, 0, 8, 251, 0, 0, 6, 0, 0, 1, 2, 0];
    assert_eq!(verdict(&negated(0), &[5]), (1, 1));
    assert_eq!(verdict(&negated(1), &[5]), (1, 0));
    assert_eq!(verdict(&binary(13, [1, 0], 0), &[200, 8]), (1, 1));
    assert_eq!(verdict(&binary(13, [1, 0], 0), &[200, 7]), (1, 0));
    assert_eq!(verdict(&binary(10, [1, 0], 255), &[3, 255]), (1, 1));
    assert_eq!(verdict(&binary(10, [1, 0], 255), &[255, 3]), (1, 0));
    let choice = [[1, 0, 0, 0, 1, 0], [1, 0, 8, 1, 0, 0], [1, 0, 8, 2, 0, 0], [7, 0, 8, 0, 1, 2], [6, 0, 0, 3, 1, 0]];
    assert_eq!(verdict(&choice.concat(), &[1, 3, 3]), (1, 1));
    assert_eq!(verdict(&choice.concat(), &[1, 3, 4]), (1, 0));
    let p12 = [[1, 0, 8, 0, 1, 0], [0, 0, 8, 5, 0, 0], [14, 0, 0, 0, 1, 0], [2, 0, 0, 2, 0, 0], [4, 0, 0, 2, 3, 0]];
    assert_eq!(verdict(&p12.concat(), &[3]), (1, 0));
    assert_eq!(verdict(&p12.concat(), &[9]), (1, 0));
}

/// Two vectors under less: nothing is above all ones, nothing is below 0.
#[test]
fn less() {
    let compared = |width, marks: [u32; 2], values: [u32; 2]| {
        let table = [[1, 0, width, 0, marks[0], 0], [1, 0, width, 1, marks[1], 0], [14, 0, 0, 0, 1, 0]];
        verdict(&table.concat(), &values)
    };
    assert_eq!(compared(8, [1, 0], [5, 0]), (0, 1));
    assert_eq!(compared(8, [0, 1], [255, 5]), (0, 1));
    assert_eq!(compared(8, [0, 1], [0, 5]), (1, 0));
    assert_eq!(compared(8, [1, 0], [5, 255]), (1, 0));
    assert_eq!(compared(8, [1, 0], [0, 1]), (1, 0));
    assert_eq!(compared(8, [0, 1], [5, 0]), (0, 0));
    assert_eq!(compared(8, [1, 0], [255, 5]), (0, 0));
    assert_eq!(compared(1, [0, 1], [1, 1]), (0, 1));
    assert_eq!(compared(9, [0, 1], [255, 5]), (0, 0));
    assert_eq!(compared(32, [0, 1], [u32::MAX, 5]), (0, 1));
    let shifted = [1, 0, 8, 0, 1, 0, 13, 0, 8, 0, 0, 0, 6, 0, 0, 1, 1, 0];
    let mut answer = [0; 4];
    assert_eq!((finish(&shifted, &mut [0; 78], &mut answer), answer), (0, [13, 11, 12, 0]));
}

/// Two vectors under signed less: nothing is above the greatest, nothing is below the least.
#[test]
fn signed_less() {
    let compared = |width, marks: [u32; 2], values: [u32; 2]| {
        let table = [[1, 0, width, 0, marks[0], 0], [1, 0, width, 1, marks[1], 0], [19, 0, 0, 0, 1, 0]];
        verdict(&table.concat(), &values)
    };
    assert_eq!(compared(8, [0, 0], [255, 0]), (1, 1));
    assert_eq!(compared(8, [0, 0], [127, 128]), (0, 1));
    assert_eq!(compared(8, [0, 1], [127, 5]), (0, 1));
    assert_eq!(compared(8, [1, 0], [5, 128]), (0, 1));
    assert_eq!(compared(8, [0, 1], [255, 5]), (1, 0));
    assert_eq!(compared(8, [1, 0], [5, 0]), (0, 0));
    assert_eq!(compared(8, [0, 1], [128, 5]), (1, 0));
    assert_eq!(compared(8, [1, 0], [127, 5]), (0, 0));
    assert_eq!(compared(1, [0, 0], [1, 0]), (1, 1));
    assert_eq!(compared(1, [0, 1], [0, 0]), (0, 1));
    assert_eq!(compared(1, [1, 0], [0, 1]), (0, 1));
    assert_eq!(compared(32, [0, 1], [u32::MAX >> 1, 5]), (0, 1));
}

/// The first operand settles a shift right by 0 and all ones; the amount does not.
#[test]
fn shift_right() {
    let shifted = |width, marks: [u32; 2], values: [u32; 2], is| {
        let mut table = binary(20, marks, is);
        [2, 8, 14, 20].iter().for_each(|&place| table[place] = width);
        verdict(&table, &values)
    };
    assert_eq!(shifted(8, [0, 0], [128, 255], 255), (1, 1));
    assert_eq!(shifted(8, [0, 0], [128, 1], 192), (1, 1));
    assert_eq!(shifted(8, [0, 0], [127, 9], 0), (1, 1));
    assert_eq!(shifted(8, [0, 1], [0, 3], 0), (1, 1));
    assert_eq!(shifted(8, [0, 1], [255, 3], 255), (1, 1));
    assert_eq!(shifted(8, [0, 1], [128, 255], 255), (1, 0));
    assert_eq!(shifted(8, [1, 0], [255, 1], 255), (1, 0));
    assert_eq!(shifted(8, [1, 0], [128, 255], 255), (1, 0));
    assert_eq!(shifted(1, [0, 1], [1, 1], 1), (1, 1));
    assert_eq!(shifted(1, [1, 0], [1, 1], 1), (1, 0));
    assert_eq!(shifted(32, [0, 0], [1 << 31, 31], u32::MAX), (1, 1));
}

/// Test, two arrays and an index in slots 0 to 3 with these marks: what the array that the test picks holds there is below 90.
fn curves(marks: [u32; 4]) -> Vec<u32> {
    let [c, a, b, i] = marks;
    [
        [1, 0, 0, 0, c, 0],
        [1, 8, 8, 1, a, 0],
        [1, 8, 8, 2, b, 0],
        [1, 0, 8, 3, i, 0],
        [7, 8, 8, 0, 1, 2],
        [15, 0, 8, 4, 3, 0],
        [0, 0, 8, 90, 0, 0],
        [14, 0, 0, 5, 6, 0],
    ]
    .concat()
}

/// Of the curves, finished: the read's group, from term 10 on.
const GROUP_OF_CURVES: [[u32; 6]; 10] = [
    [3, 0, 0, 8, 8, 0],
    [3, 0, 0, 8, 8, 0],
    [15, 0, 8, 1, 3, 0],
    [15, 0, 8, 2, 3, 0],
    [7, 0, 0, 0, 10, 11],
    [3, 0, 0, 9, 14, 0],
    [3, 0, 0, 10, 11, 0],
    [6, 0, 0, 12, 13, 0],
    [3, 0, 0, 16, 17, 0],
    [4, 0, 0, 15, 18, 0],
];

#[test]
fn choices_of_arrays() {
    assert_eq!(verdict(&curves([1, 0, 0, 0]), &[1, 50, 50, 7]), (1, 1));
    assert_eq!(verdict(&curves([1, 0, 0, 0]), &[1, 50, 60, 7]), (1, 0));
    assert_eq!(verdict(&curves([1, 0, 1, 0]), &[1, 50, 50, 7]), (1, 0));
    assert_eq!(verdict(&curves([0, 0, 1, 0]), &[1, 50, 60, 7]), (1, 1));
    assert_eq!(verdict(&curves([0, 0, 1, 0]), &[0, 50, 60, 7]), (1, 0));
    assert_eq!(verdict(&curves([0, 1, 0, 0]), &[0, 50, 95, 7]), (0, 1));
    assert_eq!(verdict(&curves([0, 0, 0, 1]), &[1, 50, 50, 7]), (1, 0));
    let (mut work, mut answer) = ([5; 17], [0; 4]);
    assert_eq!(judge(&curves([1, 0, 0, 0]), &[], &[1, 50, 50, 7], &[], 1, &mut work, &mut answer), 0);
    assert_eq!((answer, work), ([1, 1, 1, 0], [1, 0, 0, 7, 0, 50, 90, 1, 0, 1, 1, 1, 0, 1, 1, 1, 5]));
    let mut room = [9; 6 * 30];
    assert_eq!(finish(&curves([1, 0, 0, 0]), &mut room, &mut answer), 0);
    assert_eq!((answer, &room[60..120]), ([30, 28, 29, 0], GROUP_OF_CURVES.as_flattened()));
    assert!(text(&curves([1, 0, 0, 0])).contains("t4 () (Array (_ BitVec 8) (_ BitVec 8)) (ite v0 v1 v2))\n"));
}

/// A test and an array, choices between the array before and that again, then one more term and a rule.
fn tower(choices: u32, more: [u32; 6]) -> Vec<u32> {
    let mut table = vec![1, 0, 0, 0, 0, 0, 1, 8, 8, 1, 0, 0];
    table.extend((1..=choices).flat_map(|array| [7, 8, 8, 0, array, array]));
    table.extend(more);
    table.extend([2, 0, 0, 0, 0, 0]);
    table
}

#[test]
fn sizes() {
    let refused = |table: &[u32]| {
        let mut answer = [9; 4];
        (admit(table, &mut answer), answer[0])
    };
    assert_eq!(refused(&tower(4, [7, 8, 8, 0, 5, 1])), (0, 0));
    assert_eq!(refused(&tower(4, [7, 8, 8, 0, 5, 5])), (9, 6));
    assert_eq!(refused(&tower(4, [7, 8, 8, 0, 2, 5])), (9, 6));
    assert_eq!(refused(&tower(4, [7, 8, 8, 1, 5, 5])), (6, 6));
    assert_eq!(refused(&tower(4, [7, 8, 9, 0, 5, 5])), (6, 6));
    assert_eq!(refused(&tower(4, [6, 0, 0, 5, 5, 0])), (6, 6));
    let steps = [[1, 0, 0, 0, 0, 0], [1, 8, 8, 1, 0, 0], [1, 0, 8, 2, 0, 0], [16, 8, 8, 1, 2, 2], [7, 8, 8, 0, 3, 1]];
    let table = [steps.concat(), vec![15, 0, 8, 4, 2, 0, 6, 0, 0, 5, 2, 0]].concat();
    let mut answer = [0; 4];
    assert_eq!(evaluate(&table, &[0, 9, 9], &[], 2, &mut [0; 7], &mut answer), 0);
    assert_eq!(answer, [2, 0, 0, 0]);
}

fn chain(stores: u32) -> Vec<u32> {
    let mut table = vec![1, 8, 8, 0, 1, 0, 1, 0, 8, 1, 0, 0];
    table.extend((0..stores).flat_map(|k| [16, 8, 8, if k == 0 { 0 } else { k + 1 }, 1, 1]));
    table.extend([6, 0, 0, 1, 1, 0]);
    table
}

#[test]
fn refusals() {
    let refused = |table: &[u32]| {
        let mut answer = [9; 4];
        (admit(table, &mut answer), answer[0])
    };
    assert_eq!(refused(&[]), (1, 0));
    assert_eq!(refused(&G[..41]), (1, 0));
    assert_eq!(refused(&G.repeat(74)[..6 * 513]), (2, 0));
    assert_eq!(refused(&chain(16)), (0, 0));
    assert_eq!(refused(&chain(17)), (9, 18));
    assert_eq!(refused(&[1, 0, 8, 3, 0, 0, 1, 0, 8, 3, 1, 0, 21, 0, 0, 0, 0, 0]), (8, 1));
    assert_eq!(refused(&[21, 0, 0, 0, 0, 0]), (3, 0));
    assert_eq!(refused(&[1, 0, 8, 0, 0, 0, 19, 0, 8, 0, 0, 0]), (6, 1));
    assert_eq!(refused(&[1, 0, 8, 0, 0, 0, 17, 0, 8, 0, 1, 0]), (5, 1));
    assert_eq!(refused(&[1, 0, 8, 3, 0, 0, 1, 0, 8, 3, 2, 0]), (7, 1));
    assert_eq!(refused(&[1, 0, 33, 0, 0, 0]), (4, 0));
    assert_eq!(refused(&[1, 8, 0, 0, 0, 0]), (4, 0));
    assert_eq!(refused(&[2, 0, 8, 0, 0, 0]), (5, 0));
    assert_eq!(refused(&[0, 8, 8, 0, 0, 0]), (6, 0));
    assert_eq!(refused(&[0, 0, 8, 256, 0, 0]), (7, 0));
    assert_eq!(refused(&[0, 0, 8, 255, 0, 0]), (10, 0));
}

#[test]
fn settings() {
    let table = [[1, 0, 8, 0, 0, 0], [1, 8, 8, 5, 0, 0], [6, 0, 0, 0, 0, 0]].concat();
    let refused = |values: &[u32], cells: &[u32], room: usize| {
        let mut answer = [9; 4];
        (evaluate(&table, values, cells, 0, &mut vec![0; room], &mut answer), answer[0])
    };
    assert_eq!(refused(&[300], &[5], 0), (11, 0));
    assert_eq!(refused(&[300], &[], 0), (13, 0));
    assert_eq!(refused(&[30], &[], 0), (12, 1));
    assert_eq!(refused(&[3, 0, 0, 0, 0, 9], &[5, 1, 1, 0, 0, 0], 0), (14, 1));
    assert_eq!(refused(&[3, 0, 0, 0, 0, 9], &[5, 1, 1, 5, 1, 256], 0), (15, 1));
    assert_eq!(refused(&[3, 0, 0, 0, 0, 9], &[5, 256, 1, 256, 0, 0], 0), (15, 0));
    assert_eq!(refused(&[3, 0, 0, 0, 0, 9], &[], 2), (22, 3));
    assert_eq!(refused(&[3, 0, 0, 0, 0, 9], &[5, 1, 1], 3), (0, 0));
}

/// Number and first answer of a text, in a room for 512 terms; with the table's length where there is one.
fn read(text: &str) -> (u32, u64) {
    let (mut answer, mut room) = ([0; 4], vec![7; 6 * 512]);
    (parse(text.as_bytes(), &mut room, &mut answer), answer[0])
}

#[test]
fn typed_rules() {
    let declared = "(declare-const a Bool)(declare-const x1 (_ BitVec 8))";
    let asserted = |expression: &str| read(&format!("{declared}(assert {expression})(check-sat)"));
    let at = |offset: usize| (declared.len() + "(assert ".len() + offset) as u64;
    assert_eq!(read(""), (31, 0));
    assert_eq!(read(" (check-sat)"), (35, 2));
    assert_eq!(read("(assert true)(check-sat)"), (0, 6));
    assert_eq!(asserted("a"), (0, 18));
    assert_eq!(asserted("(= x1 #b00000000)"), (0, 24));
    assert_eq!(asserted("(bvslt (bvneg x1) (bvashr (bvsub x1 x1) x1))"), (0, 36));
    assert_eq!(asserted("(= x1 bvneg)"), (31, at(6)));
    assert_eq!(asserted("x1"), (6, 2));
    assert_eq!(asserted("#b1"), (10, 2));
    assert_eq!(asserted("(not a zz)"), (32, at(7)));
    assert_eq!(asserted("(not a #x1)"), (31, at(7)));
    assert_eq!(asserted("(not a (zz))"), (34, at(7)));
    assert_eq!(asserted("(and a)"), (34, at(6)));
    assert_eq!(asserted(&format!("{}a{}", "(not ".repeat(64), ")".repeat(64))), (0, 6 * 66));
    assert_eq!(asserted(&format!("{}a{}", "(not ".repeat(65), ")".repeat(65))), (33, at(5 * 64)));
}

/// The measured tables with choices of arrays are taken, and read them.
#[test]
fn measured_choices() {
    for input in [64, 512].map(crate::inputs::choosing).into_iter().chain([8, 64].map(crate::inputs::branched)) {
        let (mut work, mut answer) = (vec![0; 2 * input.terms()], [0; 4]);
        let number = judge(&input.table, &[], &input.values, &input.cells, u64::MAX, &mut work, &mut answer);
        assert_eq!((number, answer[2] > 0), (0, true));
        assert!(input.table.as_chunks::<6>().0.iter().any(|term| term[0] == 7 && term[1] != 0));
    }
    assert_eq!(verdict(&crate::inputs::branched(2).table, &[5, 5, 1, 7]), (0, 1));
}

/// The measured rules have the terms that their names say, and the compared ones are rules.
#[test]
fn measured_rules() {
    assert_eq!(read(&String::from_utf8(crate::typed::signed().typed).unwrap()), (0, 36));
    assert_eq!(read(&String::from_utf8(crate::typed::choices().typed).unwrap()), (0, 60));
    for terms in [8, 64, 512] {
        assert_eq!(read(&String::from_utf8(crate::typed::rule(terms).typed).unwrap()), (0, 6 * terms as u64));
    }
    assert_eq!(read(&String::from_utf8(crate::typed::names(256).typed).unwrap()), (0, 6 * 511));
    assert_eq!(read(&String::from_utf8(crate::typed::names(512).typed).unwrap()), (2, 0));
}
