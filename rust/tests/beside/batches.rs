//! Openings in a batch: lines in any order, two notices for one code, lines that cannot be opened, garbled lines, too many lines or none; on true maps,
//! false figures, damaged maps and memory of no map.
use crate::both::{empty, open, open_batch, open_yard, reckon};
use crate::expected::{network, store_map, CHAIN, COUNT, NUMBER};
use crate::inputs::growths::some_size;
use crate::inputs::lines::{longest_line, notice_line, opening_line, yard_line};
use crate::inputs::{Dice, Growth, SHAPES};
use crate::lent::{Lent, SIZES};
use crate::maps::{any_figures, any_memory, damage, true_map, DAMAGES};
use crate::plain::lines::notice_of_line;
use crate::plain::{Figures, Map, TODAY};
use crate::tally::Tally;
use std::collections::BTreeSet;

/// A map of these depots, each beside the one before it.
fn path(seed: u64, codes: &[u8]) -> Lent {
    let mut m = any_memory(&mut Dice::new(seed));
    assert_eq!(empty(&mut m), 0);
    for (i, &code) in codes.iter().enumerate() {
        let beside = &codes[i.saturating_sub(1)..i];
        assert!(b"GK".contains(&open(&mut m, code, beside)));
    }
    m
}

/// The lines that a batch left over.
fn left(m: &Lent) -> &[u8] {
    &m.left.data[..usize::from(m.left_count)]
}

fn are_linked(m: &Lent, u: usize, v: usize) -> bool {
    network(m).are_linked(u, v)
}

/// The same memory but for the two places that a batch writes though it opens nothing.
fn without_left(m: &Lent) -> Lent {
    let mut m = m.clone();
    m.left.data.fill(0);
    m.left_count = 0;
    m.input.data.clear();
    m.input.lent = 0;
    m
}

/// Lines that are garbled, each in another way.
fn garbled_lines() -> Vec<Vec<u8>> {
    let mut overlong = longest_line();
    overlong.insert(0, b'0');
    let texts = [
        "\n",
        "0101010\n",
        "010101\n",
        "0101010000\n",
        "01010200\n",
        "02010100\n",
        "020A0C\n",
        "0101010a\n",
        "01010100\r\n",
        " 01010100\n",
        "01 010100\n",
        "04010200\n",
        "040101\n",
        "03010100\n",
        "05010100\n",
    ];
    texts.iter().map(|text| text.as_bytes().to_vec()).chain([overlong]).collect()
}

// ---- the rule (14.2)

/// Each line names the depot of the next one: only the last can be opened at first.
#[test]
fn a_chain_of_64_lines_in_reverse_order() {
    for step in [1, 3, 37, 255] {
        let code = |i: usize| (step * i % 256) as u8;
        let lines: Vec<Vec<u8>> = (1..=64).rev().map(|i| notice_line(code(i).into(), &[code(i - 1)])).collect();
        let mut m = path(24_000_000, &[0]);
        let mut single = m.clone();
        assert_eq!(open_batch(&mut m, &lines.concat()), 0);
        assert_eq!((m.left_count, &m.record.data[NUMBER..=COUNT]), (0, &[65, 64, 1][..]));
        // one by one, in the order in which they can be opened
        for i in 1..=64 {
            assert_eq!(open(&mut single, code(i), &[code(i - 1)]), b'G');
        }
        single.searches = m.searches;
        assert_eq!(without_left(&single), without_left(&m));
    }
}

/// The same chain in its own order, and shuffled.
#[test]
fn a_chain_of_64_lines_in_any_order() {
    for seed in 0..20 {
        let mut dice = Dice::new(24_100_000 + seed);
        let mut lines: Vec<Vec<u8>> = (1..=64).map(|i| notice_line(3 * i, &[3 * (i - 1) as u8])).collect();
        if seed > 0 {
            dice.shuffle(&mut lines);
        }
        let mut m = path(24_100_000 + seed, &[0]);
        assert_eq!((open_batch(&mut m, &lines.concat()), m.left_count), (0, 0));
        assert_eq!(m.record.data[NUMBER..=COUNT], [65, 64, 1]);
    }
}

/// Rule 14.7, with 20 for its 05. 9 beside 20, 20 beside 0, 9 beside 0: once 20 is open the scan begins again at the first line, and 9 stands beside 20.
#[test]
fn the_first_of_two_notices_for_a_code() {
    let lines = [notice_line(9, &[20]), notice_line(20, &[0]), notice_line(9, &[0])];
    let mut m = path(24_200_000, &[0]);
    assert_eq!((open_batch(&mut m, &lines.concat()), left(&m)), (0, &[2][..]));
    assert!(are_linked(&m, 9, 20) && !are_linked(&m, 9, 0));
    assert_eq!(m.record.data[NUMBER..=COUNT], [3, 2, 1]);
    // with the lines about it the other way round 9 stands beside 0
    let mut m = path(24_200_000, &[0]);
    let lines = [&lines[2], &lines[1], &lines[0]].map(|line| line.as_slice());
    assert_eq!((open_batch(&mut m, &lines.concat()), left(&m)), (0, &[2][..]));
    assert!(are_linked(&m, 9, 0) && !are_linked(&m, 9, 20));
    // the one that cannot be opened does not stand in the way
    let mut m = path(24_200_000, &[0]);
    let lines = [notice_line(9, &[30]), notice_line(20, &[0]), notice_line(9, &[20])];
    assert_eq!((open_batch(&mut m, &lines.concat()), left(&m)), (0, &[0][..]));
    assert!(are_linked(&m, 9, 20));
}

/// The same of a yard: whichever notice for 9 can be accepted first says whether it is one. Yards open beside depots and depots beside yards, and a chain of
/// them that comes in reverse order is opened whole.
#[test]
fn yards_in_a_batch() {
    for (first, third) in [(true, false), (false, true)] {
        let lines = [opening_line(first, 9, &[20]), yard_line(20, &[0]), opening_line(third, 9, &[0])];
        let mut m = path(24_250_000, &[0]);
        assert_eq!((open_batch(&mut m, &lines.concat()), left(&m)), (0, &[2][..]));
        assert_eq!(network(&m).yards, if first { BTreeSet::from([9, 20]) } else { BTreeSet::from([20]) });
        assert_eq!(m.record.data[NUMBER..=COUNT], if first { [3, 0, 0] } else { [3, 2, 1] });
    }
    let lines: Vec<Vec<u8>> = (1..=64).rev().map(|i| opening_line(i % 2 == 1, 3 * i, &[3 * (i - 1) as u8])).collect();
    let mut m = path(24_260_000, &[0]);
    assert_eq!((open_batch(&mut m, &lines.concat()), m.left_count), (0, 0));
    assert_eq!(m.record.data[NUMBER..=COUNT], [65, 64, 1]);
    assert_eq!(network(&m).yards, (1..=64).step_by(2).map(|i| 3 * i).collect());
    // a yard is refused as a depot is: taken, lonely, unsorted, unknown
    let lines = [yard_line(0, &[3]), yard_line(200, &[]), yard_line(200, &[3, 0]), yard_line(200, &[200]), notice_line(3, &[0])];
    assert_eq!((open_batch(&mut m, &lines.concat()), m.left_count), (0, 5));
    // one yard that is open bears a batch
    assert_eq!((empty(&mut m), open_yard(&mut m, 7, &[])), (0, b'K'));
    assert_eq!((open_batch(&mut m, &notice_line(8, &[7])), m.left_count, m.record.data[NUMBER]), (0, 0, 2));
}

/// A line for each way to be refused, and none of them stands in the way of the others: taken, lonely, unsorted, unknown, itself, twice the same.
#[test]
fn what_is_left_over() {
    let lines = [
        notice_line(10, &[11]),
        notice_line(20, &[]),
        notice_line(20, &[12, 10]),
        notice_line(20, &[10, 10]),
        notice_line(20, &[10, 99]),
        notice_line(20, &[10, 20]),
        notice_line(20, &[10, 12, 21]),
        notice_line(21, &[11]),
        notice_line(21, &[11]),
        notice_line(98, &[97]),
        notice_line(97, &[98]),
    ];
    let mut m = path(24_300_000, &[10, 11, 12]);
    assert_eq!((open_batch(&mut m, &lines.concat()), left(&m)), (0, &[0, 1, 2, 3, 4, 5, 8, 9, 10][..]));
    assert_eq!(network(&m).open, BTreeSet::from([10, 11, 12, 20, 21]));
    // handed in again nothing of them can be opened
    let before = without_left(&m);
    assert_eq!((open_batch(&mut m, &lines.concat()), left(&m)), (0, &(0..11).collect::<Vec<u8>>()[..]));
    assert_eq!(without_left(&m), before);
}

/// 64 lines, and all are left over: every place is written, and the map and scratch are as they were.
#[test]
fn all_are_left_over() {
    let mut m = path(24_400_000, &[10, 11, 12]);
    m.set_lent(12, 70);
    let before = m.clone();
    assert_eq!((open_batch(&mut m, &notice_line(11, &[10]).repeat(64)), m.left_count), (0, 64));
    assert_eq!(m.left.data[..64], (0..64).collect::<Vec<u8>>());
    assert_eq!(m.left.data[64..], before.left.data[64..]);
    assert_eq!(without_left(&m), without_left(&before));
    // and behind fewer of them the places keep their values
    let mut m = before.clone();
    assert_eq!((open_batch(&mut m, &notice_line(11, &[10]).repeat(3)), left(&m)), (0, &[0, 1, 2][..]));
    assert_eq!(m.left.data[3..], before.left.data[3..]);
    assert_eq!(without_left(&m), without_left(&before));
}

#[test]
fn no_lines() {
    let mut m = path(24_500_000, &[10, 11, 12]);
    let before = m.clone();
    assert_eq!((open_batch(&mut m, b""), m.left_count), (0, 0));
    assert_eq!(m.left, before.left);
    assert_eq!(without_left(&m), without_left(&before));
}

/// All 256 depots open, the last of them by the longest line.
#[test]
fn a_full_map() {
    let mut m = path(24_600_000, &(0..=254).collect::<Vec<u8>>());
    let lines = [longest_line(), notice_line(255, &[0])];
    assert_eq!((open_batch(&mut m, &lines.concat()), left(&m)), (0, &[1][..]));
    assert_eq!(m.record.data[NUMBER..=CHAIN], [256, 2]);
    let before = without_left(&m);
    assert_eq!((open_batch(&mut m, &lines.concat()), left(&m)), (0, &[0, 1][..]));
    assert_eq!(without_left(&m), before);
}

/// Every order of a few lines, each line tried once in its turn: none opens a code that the batch does not open.
#[test]
fn the_largest_set_of_any_order() {
    let mut smaller = 0;
    for seed in 0..150 {
        let mut dice = Dice::new(24_700_000 + seed);
        let mut m = path(24_700_000 + seed, &[3, 140]);
        let network_before = network(&m);
        let lines: Vec<Vec<u8>> = (0..5)
            .map(|_| {
                let some: BTreeSet<u8> = (0..1 + dice.below(2)).map(|_| dice.pick(&[3, 140, 7, 70, 200])).collect();
                opening_line(dice.once_in(3), dice.pick(&[7, 70, 200]), &some.into_iter().collect::<Vec<u8>>())
            })
            .collect();
        assert_eq!(open_batch(&mut m, &lines.concat()), 0);
        let reached = network(&m).open;
        for order in orders(5) {
            let mut map = Map::true_of(network_before.clone());
            for i in order {
                let notice = notice_of_line(TODAY, &lines[i]).expect("a notice");
                let _ = map.take(&notice);
            }
            assert!(map.network.open.is_subset(&reached));
            smaller += usize::from(map.network.open.len() < reached.len());
        }
    }
    assert!(smaller > 1_000, "{smaller} orders opened fewer");
}

/// Every order of the numbers below n.
fn orders(n: usize) -> Vec<Vec<usize>> {
    if n == 0 {
        return vec![Vec::new()];
    }
    let insert = |shorter: &Vec<usize>, at: usize| [&shorter[..at], &[n - 1], &shorter[at..]].concat();
    orders(n - 1).iter().flat_map(|shorter| (0..n).map(move |at| insert(shorter, at))).collect()
}

// ---- the refusals

/// 65 lines are too many whatever they are, and whatever the map has; 64 are not.
#[test]
fn too_many_lines() {
    let good = notice_line(20, &[10]);
    let mut bare = any_memory(&mut Dice::new(25_000_000));
    assert_eq!(empty(&mut bare), 0);
    let mut m = path(25_000_000, &[10, 11]);
    for (sixty_four, last) in [
        (good.repeat(64), good.clone()),
        (good.repeat(64), b"\n".to_vec()),
        (good.repeat(64), b"0".to_vec()),
        (good.repeat(64), notice_line(21, &[10])[..8].to_vec()),
        (b"\n".repeat(64), b"\n".to_vec()),
        (b"\n".repeat(64), good.clone()),
        ([good.repeat(63), b"x\n".to_vec()].concat(), good.clone()),
    ] {
        let more = [&sixty_four[..], &last].concat();
        assert_eq!((open_batch(&mut bare, &more), open_batch(&mut m, &more)), (11, 11));
        let many = more.repeat(5);
        assert_eq!((open_batch(&mut bare, &many), open_batch(&mut m, &many)), (11, 11));
        assert_eq!(open_batch(&mut bare, &sixty_four), 12);
        assert_eq!(open_batch(&mut m.clone(), &sixty_four), if sixty_four == good.repeat(64) { 0 } else { 9 });
    }
    assert_eq!((open_batch(&mut m, &good.repeat(64)), m.left_count, m.left.data[0]), (0, 63, 1));
}

/// The empty map takes no batch: not of no lines, not of a first opening, not of garbled lines.
#[test]
fn no_depot_is_open() {
    let mut m = any_memory(&mut Dice::new(25_100_000));
    assert_eq!(empty(&mut m), 0);
    for lines in [&b""[..], b"010000\n", b"01010100\n", b"\n", b"010000", &b"\n".repeat(64)] {
        assert_eq!(open_batch(&mut m, lines), 12);
    }
    assert_ne!(open(&mut m, 7, &[]), 12);
    assert_eq!((open_batch(&mut m, &notice_line(8, &[7])), m.left_count), (0, 0));
}

/// Bytes behind the last 0A are a line, though they spell a notice: alone, behind others, as the 64th.
#[test]
fn a_last_line_without_its_end() {
    let good = notice_line(20, &[10]);
    let unended = &good[..good.len() - 1];
    let mut m = path(25_200_000, &[10, 11]);
    for before in [0, 1, 2, 62, 63] {
        assert_eq!(open_batch(&mut m, &[&good.repeat(before), unended].concat()), 9, "behind {before}");
        assert_eq!(open_batch(&mut m, &[&good.repeat(before), &b"0"[..]].concat()), 9, "behind {before}");
    }
    assert_eq!(open_batch(&mut m, &[&good.repeat(64), unended].concat()), 11);
    assert_eq!(open_batch(&mut m, &good), 0);
}

/// One garbled line at each place among good ones refuses them all.
#[test]
fn a_garbled_line_among_others() {
    let mut m = path(25_300_000, &[10, 11, 12]);
    let good = [notice_line(20, &[10]), notice_line(21, &[20]), notice_line(10, &[12]), notice_line(22, &[99]), longest_line()];
    for garbled in garbled_lines() {
        for place in 0..=good.len() {
            let mut lines = good.to_vec();
            lines.insert(place, garbled.clone());
            assert_eq!(open_batch(&mut m, &lines.concat()), 9, "{:?} at {place}", String::from_utf8_lossy(&garbled));
        }
    }
    assert_eq!((open_batch(&mut m, &good.concat()), left(&m)), (0, &[2, 3, 4][..]));
}

/// One fault more each time: garbled, bare, overfull, apart, spoilt, short.
#[test]
fn the_first_refusal_of_several() {
    let mut m = any_memory(&mut Dice::new(25_400_000));
    assert_eq!(empty(&mut m), 0);
    assert_eq!(open_batch(&mut path(25_400_000, &[1]), b"\n"), 9);
    assert_eq!(open_batch(&mut m, b"\n"), 12);
    assert_eq!(open_batch(&mut m, &b"\n".repeat(65)), 11);
    // depots 5 and 150 are open without links; nobody counts them; a row is short
    m.record.data[0] = 1 << 5;
    m.record.data[2] = 1 << (150 - 128);
    m.record.data[NUMBER] = 2;
    assert_eq!(open_batch(&mut m, &b"\n".repeat(65)), 3);
    let mut figures = m.clone();
    figures.record.data[COUNT] = 1;
    assert_eq!(open_batch(&mut figures, &b"\n".repeat(65)), 2);
    m.record.data[NUMBER] = 0;
    assert_eq!(open_batch(&mut m, &b"\n".repeat(65)), 2);
    m.set_lent(12, 63);
    assert_eq!(open_batch(&mut m, &b"\n".repeat(65)), 1);
    m.set_lent(12, 64);
    m.set_lent(7, 3);
    assert_eq!(open_batch(&mut m, &b"\n".repeat(65)), 1);
}

/// 63 places are too few, though one line is left over; of 70 the last six keep their values.
#[test]
fn the_places_for_the_lines_left_over() {
    let start = path(25_500_000, &[10]);
    for lent in [0, 1, 2, 63, 64, 65, 70] {
        for (lines, count) in [(notice_line(10, &[10]), 1), (notice_line(20, &[10]), 0), (notice_line(10, &[10]).repeat(64), 64)] {
            let mut m = start.clone();
            m.set_lent(12, lent);
            let answer = open_batch(&mut m, &lines);
            assert_eq!(answer == 1, lent < SIZES[12]);
            if answer == 0 {
                assert_eq!(usize::from(m.left_count), count);
                assert_eq!(m.left.data[count..], start.left.data[count..]);
            }
        }
    }
}

// ---- by chance

/// Notices for these open codes, in any order: most hang on others of them, some codes come twice, some cannot be opened.
fn some_notices(dice: &mut Dice, open: &BTreeSet<usize>, size: usize) -> Vec<Vec<u8>> {
    let mut known: Vec<u8> = open.iter().map(|&c| c as u8).collect();
    let mut lines = Vec::new();
    while lines.len() < size {
        let code = match dice.below(6) {
            0 if !known.is_empty() => dice.pick(&known),
            _ => dice.byte(),
        };
        let recent = known.len().saturating_sub(if dice.once_in(3) { 256 } else { 4 });
        let mut some = BTreeSet::new();
        if !known.is_empty() {
            for _ in 0..1 + dice.below(3) {
                some.insert(dice.pick(&known[recent..]));
            }
        }
        let mut beside: Vec<u8> = some.into_iter().collect();
        match dice.below(30) {
            0 => beside.clear(),
            1 => beside.reverse(),
            2 => beside.insert(0, beside.first().copied().unwrap_or(code)),
            3 | 4 => beside = BTreeSet::from_iter(beside.into_iter().chain([dice.byte()])).into_iter().collect(),
            _ => {}
        }
        lines.push(opening_line(dice.once_in(4), code.into(), &beside));
        known.push(code);
    }
    if !dice.once_in(5) {
        dice.shuffle(&mut lines);
    }
    lines
}

/// A batch for these open codes; now and then with too many lines, a garbled one or an end that is missing.
fn some_batch(dice: &mut Dice, open: &BTreeSet<usize>) -> Vec<u8> {
    let size = match dice.below(10) {
        0 => 64,
        1 => dice.below(3),
        2 if dice.once_in(3) => 65 + dice.below(3),
        _ => dice.below(24),
    };
    let mut lines = some_notices(dice, open, size);
    if dice.once_in(12) {
        let at = dice.below(lines.len() + 1);
        let garbled = garbled_lines();
        lines.insert(at, garbled[dice.below(garbled.len())].clone());
    }
    let mut input = lines.concat();
    if dice.once_in(20) {
        input.truncate(input.len().saturating_sub(1 + dice.below(4)));
    }
    input
}

/// How many lines a batch opens if each line is looked at once only.
fn opened_by_one_pass(map: &Map, lines: &[u8]) -> usize {
    let mut map = map.clone();
    let notices = lines.split_inclusive(|&b| b == 0x0A).filter_map(|line| notice_of_line(TODAY, line));
    notices.filter(|notice| map.take(notice).is_ok()).count()
}

/// A few batches one after the other, each on what the one before left; true figures stay true.
fn run_batches(dice: &mut Dice, m: &mut Lent, are_true: bool, tally: &mut Tally) -> usize {
    let mut against = 0;
    for _ in 0..3 {
        let before = network(m);
        let lines = some_batch(dice, &before.open);
        let answer = open_batch(m, &lines);
        tally.count(answer);
        if answer != 0 {
            continue;
        }
        let opened = network(m).open.len() - before.open.len();
        let start = Map::of(Figures::default(), before);
        against += usize::from(opened > opened_by_one_pass(&start, &lines));
        if are_true {
            let mut again = m.clone();
            assert_eq!(reckon(&mut again), 0);
            assert_eq!((&again.record, &again.pairs), (&m.record, &m.pairs), "the figures");
        }
    }
    against
}

#[test]
fn on_true_maps() {
    let (mut tally, mut against) = (Tally::new(), 0);
    for seed in 0..250 {
        let mut dice = Dice::new(26_000_000 + seed);
        let (mut m, _) = true_map(&mut dice);
        against += run_batches(&mut dice, &mut m, true, &mut tally);
    }
    tally.assert_only(&[0, 9, 11, 12]);
    tally.assert_all(&[9, 11], 10);
    assert!(against > 100, "{against} batches opened a line that came too early");
}

#[test]
fn on_false_but_sound_figures() {
    let (mut tally, mut against) = (Tally::new(), 0);
    for seed in 0..400 {
        let mut dice = Dice::new(27_000_000 + seed);
        let shape = dice.pick(&SHAPES);
        let size = some_size(&mut dice).min(if seed % 10 == 0 { 256 } else { 40 });
        let grown = Growth::some(&mut dice, shape).network(&mut dice, size);
        let mut m = any_memory(&mut dice);
        store_map(&mut m, &Map::of(any_figures(&mut dice, &grown), grown));
        against += run_batches(&mut dice, &mut m, false, &mut tally);
    }
    tally.assert_only(&[0, 9, 11, 12]);
    assert!(against > 100, "{against} batches opened a line that came too early");
}

#[test]
fn on_damaged_maps() {
    let mut tally = Tally::new();
    for seed in 0..60 {
        for way in 0..=DAMAGES {
            let mut dice = Dice::new(28_000_000 + 100 * seed + way as u64);
            let (mut m, network) = true_map(&mut dice);
            damage(&mut dice, &mut m, &network, way);
            let lines = some_batch(&mut dice, &network.open);
            tally.count(open_batch(&mut m, &lines));
        }
    }
    tally.assert_all(&[0, 2, 3], 20);
    tally.assert_all(&[9, 11, 12], 1);
}

#[test]
fn on_no_map() {
    for seed in 0..50 {
        let mut m = any_memory(&mut Dice::new(29_000_000 + seed));
        for lines in [&b""[..], b"010000\n", &b"\n".repeat(65)] {
            assert_eq!(open_batch(&mut m, lines), 2);
        }
    }
}
