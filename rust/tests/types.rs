//! The safe types, by what a user sees of them.
use std::thread;
use zorpedi::notice::{self, Notice};
use zorpedi::{report, Change, Map, Mark, Opened, Refusal, Search, Stream, Version};

const SEVEN: [&str; 7] = ["010000\n", "01010100\n", "01020101\n", "01030102\n", "01040103\n", "010503000204\n", "010503000204\n"];

const REPORTS: &str = "1 K 1 0 0 1\n2 G 2 1 1 1\n3 G 3 2 1 1\n4 G 4 3 1 1\n5 G 5 4 1 1\n6 S 6 3 2 6\n7 R5 6 3 2 0\n";

/// A map of a path.
fn path(codes: std::ops::Range<u8>) -> Result<Map, Refusal> {
    let mut map = Map::new();
    for code in codes.clone() {
        let beside: &[u8] = if code == codes.start { &[] } else { &[code - 1] };
        map.open(code, beside)?;
    }
    Ok(map)
}

#[test]
fn the_seven_lines_notice_by_notice() -> Result<(), Refusal> {
    let mut map = Map::new();
    let mut reports = String::new();
    for (number, line) in (1..).zip(SEVEN) {
        let answer = notice::read(line.as_bytes()).and_then(|(notice, used)| {
            assert_eq!(used, line.len());
            map.apply(&notice)
        });
        reports += &report::line(number, answer, &map);
    }
    assert_eq!(reports, REPORTS);
    assert_eq!(map.farthest_pairs().collect::<Vec<_>>(), [(0, 3), (1, 4)]);
    Ok(())
}

/// A path of four, two links, and one of each refusal: by the calls, by notices, and as a stream.
#[test]
fn links_in_three_ways() -> Result<(), Refusal> {
    let lines =
        ["020000\n", "010000\n", "01010100\n", "01020101\n", "01030102\n", "020300\n", "020202\n", "020301\n", "020003\n", "02000300\n"];
    let expected =
        "1 R4 0 0 0 0\n2 K 1 0 0 1\n3 G 2 1 1 1\n4 G 3 2 1 1\n5 G 4 3 1 1\n6 S 4 2 2 4\n7 R13 4 2 2 0\n8 K 4 2 1 2\n9 R14 4 2 1 0\n\
                    10 R9 4 2 1 0\n";
    let mut map = Map::new();
    let mut reports = String::new();
    for (number, line) in (1..).zip(lines) {
        let answer = notice::read(line.as_bytes()).and_then(|(notice, _)| {
            assert_eq!(notice::write(&notice.frame())?, line.as_bytes());
            map.apply(&notice)
        });
        reports += &report::line(number, answer, &map);
    }
    assert_eq!(reports, expected);

    let mut stream = Stream::new();
    let mut reports = Vec::new();
    stream.push(lines.concat().as_bytes(), &mut reports)?;
    stream.end(&mut reports)?;
    assert_eq!(String::from_utf8_lossy(&reports), expected);
    assert_eq!(stream.map(), &map);

    let mut called = Map::new();
    assert_eq!(called.link(0, 0), Err(Refusal::Absent));
    called.open(0, &[])?;
    for code in 1..4 {
        called.open(code, &[code - 1])?;
    }
    let Opened { change, searches, .. } = called.link(0, 3)?;
    assert_eq!((change, searches), (Change::Shrank, 4));
    let linked = called.link(1, 3)?;
    assert_eq!((linked.change, linked.searches), (Change::Kept, 2));
    assert_eq!(called, map);
    assert_eq!(
        (called.mark(1), called.mark(2), called.mark(3)),
        (Mark::Searched { eccentricity: 1 }, Mark::Unmarked, Mark::Searched { eccentricity: 1 })
    );
    Ok(())
}

/// A depot, two yards, a depot behind them and a yard that is a shorter way, with a batch before it and refused lines between: by the calls, by notices, and
/// as a stream.
#[test]
fn yards_in_three_ways() -> Result<(), Refusal> {
    let lines = ["010000\n", "04010100\n", "04020101\n", "010200\n", "01030102\n", "0404020003\n", "0401020003\n", "020204\n"];
    let expected = "1 K 1 0 0 1\n2 K 2 0 0 1\n3 K 3 0 0 1\n4 R5 3 0 0 0\n5 G 4 3 1 1\n6 S 5 2 1 5\n7 R5 5 2 1 0\n8 K 5 2 1 2\n";
    let mut map = Map::new();
    let mut reports = String::new();
    for (number, line) in (1..).zip(lines) {
        let answer = notice::read(line.as_bytes()).and_then(|(notice, _)| {
            assert_eq!(notice::write(&notice.frame())?, line.as_bytes());
            map.apply(&notice)
        });
        reports += &report::line(number, answer, &map);
    }
    assert_eq!(reports, expected);

    let mut stream = Stream::new();
    let mut reports = Vec::new();
    stream.push(lines.concat().as_bytes(), &mut reports)?;
    assert_eq!(String::from_utf8_lossy(&reports), expected);
    assert_eq!(stream.map(), &map);

    let mut called = Map::new();
    called.open(0, &[])?;
    assert_eq!(called.open_batch(b"04020101\n04010100\n")?, []);
    assert_eq!(called.open_yard(2, &[]), Err(Refusal::Taken));
    assert_eq!(called.open(3, &[2])?.change, Change::Grew);
    let Opened { change, searches, .. } = called.open_yard(4, &[0, 3])?;
    assert_eq!((change, searches), (Change::Shrank, 5));
    assert_eq!(called.mark(4), Mark::Searched { eccentricity: 1 });
    called.link(4, 2)?;
    assert_eq!(called, map);
    assert_eq!(called.yard_codes().collect::<Vec<_>>(), [1, 2, 4]);
    assert!(called.is_yard(4) && called.is_open(4) && !called.is_yard(3) && !called.is_yard(5));
    Ok(())
}

/// A yard plays its part in what a map is: in its record, in whether two maps are equal, in searches and in the summary.
#[test]
fn what_a_map_with_yards_shows() -> Result<(), Refusal> {
    let (mut yard, mut depot) = (path(60..65)?, path(60..65)?);
    yard.open_yard(65, &[64])?;
    depot.open(65, &[64])?;
    assert_ne!(yard, depot);
    assert_eq!((yard.links(), yard.record().open), (depot.links(), depot.record().open));
    assert_eq!((yard.record().yards, depot.record().yards), ([0, 2, 0, 0], [0; 4]));
    assert_eq!(((yard.depots(), yard.chain()), (depot.depots(), depot.chain())), ((6, 4), (6, 5)));
    assert_eq!(yard.open_codes().collect::<Vec<_>>(), (60..66).collect::<Vec<_>>());

    let search = yard.search(60)?;
    assert_eq!((search.eccentricity(), search.depth(), search.distance(65)), (4, 5, Some(5)));
    assert_eq!((search.last_layer().collect::<Vec<_>>(), search.layer_before().collect::<Vec<_>>()), (vec![65], vec![64]));
    assert_eq!((yard.search(65)?.eccentricity(), yard.within(64, 1)?), (5, vec![63, 64, 65]));
    // the path of five: 4 + 6 + 6 + 4 = 20 over 10 pairs
    let summary = yard.summary()?;
    assert_eq!((summary.sum, summary.pairs, summary.mean()), (20, 10, (2, 1)));
    assert_eq!(summary.counts[..6], [0, 0, 1, 2, 2, 0]);

    let mut again = Map::from_parts(yard.record(), yard.links(), yard.pairs());
    assert_eq!(again, yard);
    // a yard that is closed; a pair at a yard, which a reckoning repairs
    let mut record = yard.record();
    record.yards[0] |= 1;
    assert_eq!(Map::from_parts(record, yard.links(), yard.pairs()).search(60), Err(Refusal::Spoilt));
    let mut record = depot.record();
    record.yards = yard.record().yards;
    let mut pair = Map::from_parts(record, depot.links(), depot.pairs());
    assert_eq!(pair.open(66, &[65]), Err(Refusal::Spoilt));
    pair.reckon()?;
    assert_eq!(pair, yard);
    again.empty();
    assert_eq!(again, Map::new());
    Ok(())
}

/// The frames of notices that a program makes: they are written as lines that read as these notices, but for one with too many neighbours.
#[test]
fn notices_by_kind() -> Result<(), Refusal> {
    for (notice, line) in [
        (Notice::Opening { code: 5, neighbours: vec![0, 2, 4] }, "010503000204\n"),
        (Notice::Opening { code: 255, neighbours: vec![] }, "01FF00\n"),
        (Notice::Link { first: 1, second: 5 }, "020105\n"),
        (Notice::Link { first: 5, second: 1 }, "020501\n"),
        (Notice::Link { first: 255, second: 255 }, "02FFFF\n"),
        (Notice::YardOpening { code: 5, neighbours: vec![0, 2, 4] }, "040503000204\n"),
        (Notice::YardOpening { code: 0, neighbours: vec![] }, "040000\n"),
    ] {
        assert_eq!(notice::write(&notice.frame())?, line.as_bytes());
        assert_eq!(notice::read(line.as_bytes())?, (notice, line.len()));
    }
    let (code, all) = (255, (0..=254).collect::<Vec<u8>>());
    for longest in [Notice::Opening { code, neighbours: all.clone() }, Notice::YardOpening { code, neighbours: all.clone() }] {
        assert_eq!(notice::read(&notice::write(&longest.frame())?)?, (longest, notice::LINE_LIMIT));
    }
    for count in [256, 257, 511, 512] {
        let neighbours = vec![7; count];
        for more in [Notice::Opening { code, neighbours: neighbours.clone() }, Notice::YardOpening { code, neighbours }] {
            assert_eq!(notice::write(&more.frame()), Err(Refusal::Garbled));
        }
    }
    Ok(())
}

#[test]
fn the_seven_lines_as_a_stream() -> Result<(), Refusal> {
    let input = SEVEN.concat();
    for piece in 1..input.len() {
        let mut stream = Stream::new();
        let mut reports = Vec::new();
        for part in input.as_bytes().chunks(piece) {
            stream.push(part, &mut reports)?;
        }
        stream.end(&mut reports)?;
        assert_eq!(reports, REPORTS.as_bytes());
        assert_eq!((stream.lines(), stream.map().chain()), (7, 3));
    }
    Ok(())
}

#[test]
fn more_lines_than_a_stream_answers() -> Result<(), Refusal> {
    let mut stream = Stream::new();
    let mut reports = Vec::new();
    stream.push(&vec![b'\n'; 1_000_002], &mut reports)?;
    stream.end(&mut reports)?;
    assert_eq!(stream.lines(), Stream::LINES_LIMIT);
    assert!(reports.ends_with(b"\n999999 R9 0 0 0 0\n1000000 R9 0 0 0 0\n"));
    Ok(())
}

#[test]
fn each_refusal() -> Result<(), Refusal> {
    let mut map = path(10..13)?;
    let before = map.clone();
    assert_eq!(map.open(11, &[10]), Err(Refusal::Taken));
    assert_eq!(map.open(13, &[]), Err(Refusal::Lonely));
    assert_eq!(map.open(13, &[12, 10]), Err(Refusal::Unsorted));
    assert_eq!(map.open(13, &[12, 13]), Err(Refusal::Unknown));
    assert_eq!(map.search(13), Err(Refusal::Absent));
    assert_eq!((map.link(13, 10), map.link(13, 13)), (Err(Refusal::Absent), Err(Refusal::Absent)));
    assert_eq!((map.link(12, 12), map.link(12, 11)), (Err(Refusal::Itself), Err(Refusal::Linked)));
    assert_eq!(map.open_batch(b"01140113\n0"), Err(Refusal::Garbled));
    assert_eq!(map.open_batch(b"010D010C\n020A0C\n"), Err(Refusal::Garbled));
    assert_eq!(map.open_batch(&[b'\n'; 65]), Err(Refusal::Overfull));
    assert_eq!(Map::new().open_batch(b"010000\n"), Err(Refusal::Bare));
    assert_eq!(notice::read(b"x\n"), Err(Refusal::Garbled));
    assert_eq!(Stream::new().feed(b"", &mut []), Err(Refusal::Short));
    assert!(map == before);

    // a depot without links
    let mut record = map.record();
    record.open[3] |= 1;
    record.number += 1;
    let mut apart = Map::from_parts(record, map.links(), map.pairs());
    assert_eq!(apart.open(13, &[12]), Err(Refusal::Apart));
    assert_eq!(apart.link(10, 12), Err(Refusal::Apart));
    assert_eq!(apart.open_batch(b""), Err(Refusal::Apart));
    assert_eq!(apart.search(10), Err(Refusal::Apart));
    assert_eq!(apart.reckon(), Err(Refusal::Apart));

    let mut links = *map.links();
    links[4 * 10] = 0;
    let mut spoilt = Map::from_parts(map.record(), &links, map.pairs());
    assert_eq!(spoilt.open(13, &[12]), Err(Refusal::Spoilt));
    assert_eq!(spoilt.link(10, 12), Err(Refusal::Spoilt));
    assert_eq!(spoilt.open_batch(b""), Err(Refusal::Spoilt));
    assert_eq!(spoilt.search(10), Err(Refusal::Spoilt));
    assert_eq!(spoilt.reckon(), Err(Refusal::Spoilt));
    spoilt.empty();
    let Opened { change, searches, .. } = spoilt.open(13, &[])?;
    assert_eq!((change, searches), (Change::Kept, 1));
    Ok(())
}

/// Each refusal has the number and the word of the trade, and every other number has none.
#[test]
fn the_refusals_that_have_a_name() {
    let words = [
        "short", "spoilt", "apart", "absent", "taken", "lonely", "unsorted", "unknown", "garbled", "nobody", "overfull", "bare", "itself",
        "linked", "too few",
    ];
    let named: Vec<(u8, &str)> = Refusal::all().map(|refusal| (refusal.number(), refusal.word())).collect();
    assert_eq!(named, (1..).zip(words).collect::<Vec<_>>());
    for refusal in Refusal::all() {
        assert_eq!(Refusal::from_number(refusal.number()), Some(refusal));
        assert!(refusal.to_string().starts_with(&format!("{} ({}): ", refusal.word(), refusal.number())));
    }
    assert_eq!((0..=255).filter_map(Refusal::from_number).count(), words.len());
    assert!(Refusal::Short < Refusal::Garbled && Refusal::Garbled < Refusal::Nobody);
}

#[test]
fn the_archive_serves() {
    let archive = Version::of_archive();
    assert_eq!(archive, Version::WANTED);
    assert!(archive.serves());
    assert_eq!(archive.to_string(), format!("{}.{}", archive.major, archive.minor));
}

#[test]
fn figures_that_were_lost_are_reckoned() -> Result<(), Refusal> {
    let map = path(100..200)?;
    let mut lost = map.record();
    lost.chain = 999;
    lost.pairs = 5;
    let mut again = Map::from_parts(lost, map.links(), &[u64::MAX; 1024]);
    assert_eq!(again.open(200, &[199]), Err(Refusal::Spoilt));
    let searches = again.reckon()?;
    assert_eq!(again.record(), map.record());
    assert_eq!(again.pairs(), map.pairs());
    let marked = (0..=255).filter(|&code| matches!(again.mark(code), Mark::Searched { .. })).count();
    assert_eq!(usize::from(searches), marked);
    Ok(())
}

/// A batch in any order leaves the map of its notices one by one; what it could not open is left over.
#[test]
fn a_batch_in_two_orders() -> Result<(), Refusal> {
    let start = path(0..4)?;
    let lines: [&[u8]; 4] = [b"01050104\n", b"01040103\n", b"01040100\n", b"01070106\n"];
    let (mut one, mut other, mut single) = (start.clone(), start.clone(), start.clone());
    assert_eq!(one.open_batch(&lines.concat())?, [2, 3]);
    assert_eq!(other.open_batch(&[lines[3], lines[1], lines[2], lines[0]].concat())?, [0, 2]);
    single.open(4, &[3])?;
    single.open(5, &[4])?;
    assert_eq!((&one, &other), (&single, &single));
    assert_eq!(one.mark(5), single.mark(5));
    assert_eq!(one.open_batch(b"")?, []);
    assert_eq!(one, single);
    Ok(())
}

/// The same notices in another order leave an equal map, whichever code of a link comes first.
#[test]
fn two_orders() -> Result<(), Refusal> {
    let mut one = path(0..4)?;
    let mut other = one.clone();
    one.open(8, &[0, 3])?;
    one.link(1, 3)?;
    one.open(9, &[1])?;
    other.open(9, &[1])?;
    other.link(3, 1)?;
    assert_ne!(one, other);
    other.open(8, &[0, 3])?;
    assert_eq!(one, other);
    other.search(2)?;
    assert_eq!(one, other);
    Ok(())
}

#[test]
fn what_a_map_shows() -> Result<(), Refusal> {
    let map = path(60..70)?;
    assert_eq!(map.open_codes().collect::<Vec<_>>(), (60..70).collect::<Vec<_>>());
    assert!(map.is_open(63) && map.is_open(64) && !map.is_open(70));
    assert!(map.are_linked(63, 64) && map.are_linked(64, 63) && !map.are_linked(63, 65));
    assert_eq!(map.neighbours(64).collect::<Vec<_>>(), [63, 65]);
    assert_eq!((map.depots(), map.chain(), map.pair_count()), (10, 9, 1));
    assert_eq!(format!("{map:?}"), "Map { depots: 10, chain: 9, pairs: 1, .. }");

    let search = map.search(64)?;
    assert_eq!(search.eccentricity(), 5);
    assert_eq!(search.last_layer().collect::<Vec<_>>(), [69]);
    assert_eq!(search.layer_before().collect::<Vec<_>>(), [60, 68]);
    assert_eq!((search.distance(60), search.distance(71)), (Some(4), None));
    assert_eq!(search.distances()[69], 5);
    assert_eq!(search.distances()[0], 65_535);

    let single = path(7..8)?.search(7)?.layer_before().count();
    assert_eq!(single, 0);
    Ok(())
}

/// The eccentricities of a map's depots by searches whose results all live together, beside the map.
fn greatest(map: &Map) -> Result<u16, Refusal> {
    let searches: Vec<Search> = map.open_codes().map(|code| map.search(code)).collect::<Result<_, _>>()?;
    for (u, from) in map.open_codes().zip(&searches) {
        for (v, to) in map.open_codes().zip(&searches) {
            assert_eq!(from.distance(v), to.distance(u));
        }
    }
    Ok(searches.iter().map(Search::eccentricity).max().unwrap_or(0))
}

/// A search reads the map only: its result lives beside the map, later searches and later openings.
#[test]
fn searches_beside_the_map() -> Result<(), Refusal> {
    let mut map = path(10..20)?;
    let before = map.clone();
    let first = map.search(10)?;
    assert_eq!((first.eccentricity(), first.distance(19)), (map.chain(), Some(9)));
    assert_eq!(greatest(&map)?, map.chain());
    assert_eq!(map, before);
    assert_eq!(map.mark(19), before.mark(19));

    map.open(20, &[10, 19])?;
    assert_eq!(first.distance(20), None);
    assert_eq!(map.search(10)?.distance(20), Some(1));
    assert_eq!(before.search(10)?, first);
    Ok(())
}

#[test]
fn a_streams_map_is_searched() -> Result<(), Refusal> {
    let mut stream = Stream::new();
    let mut reports = Vec::new();
    let mut chains = Vec::new();
    for line in SEVEN {
        stream.push(line.as_bytes(), &mut reports)?;
        assert_eq!(greatest(stream.map())?, stream.map().chain());
        chains.push(stream.map().chain());
    }
    assert_eq!(chains, [0, 1, 2, 3, 4, 3, 3]);
    assert_eq!(reports, REPORTS.as_bytes());
    Ok(())
}

#[test]
fn threads_search_one_map() -> Result<(), Refusal> {
    let map = path(0..200)?;
    let alone: Vec<Search> = map.open_codes().map(|code| map.search(code)).collect::<Result<_, _>>()?;
    let (map, alone) = (&map, &alone);
    thread::scope(|scope| {
        for step in [1, 3, 7, 11] {
            scope.spawn(move || {
                for code in (0..200u8).step_by(step) {
                    assert_eq!(map.search(code).as_ref(), Ok(&alone[usize::from(code)]));
                }
            });
        }
    });
    Ok(())
}
