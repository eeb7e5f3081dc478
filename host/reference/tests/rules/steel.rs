//! "Slab steel", with "The default depth." (02, Six)

use reference::steel::{answer, depth, k, moment_is_carried, steel, Query};

/// The strip of 01's figures.
fn strip(m: u128) -> Query {
    Query::of([m, 1_000, 150, 124, 30, 420])
}

fn refusal(query: Query) -> u128 {
    let (refused, area) = answer(query);
    assert!(refused == 0 || area == 0, "{query:?}");
    refused
}

/// "M 2,195,000, b 1,000, t 150, d 124, fc 30, fy 420: 484; *M 0: 270; M 20,000,000: refusal 12."
#[test]
fn figures_of_01() {
    assert_eq!(steel(2_195_000, 1_000, 150, 124, 30, 420), (0, 484));
    assert_eq!(steel(0, 1_000, 150, 124, 30, 420), (0, 270));
    assert_eq!(steel(20_000_000, 1_000, 150, 124, 30, 420), (12, 0));
}

/// "From now on 0 stands for t − 38" (02, Six): 112 of 150, where M 2,195,000 takes 540, which carry 2041200·54852000 /
/// 51000000 = 2,195,370; 539 carry 2037420·54856200/51000000 = 2,191,472.
#[test]
fn depth_by_default() {
    assert_eq!(depth(Query { d: 0, ..strip(0) }), 112);
    assert_eq!(depth(Query { d: 125, ..strip(0) }), 125);
    assert_eq!(steel(2_195_000, 1_000, 150, 0, 30, 420), (0, 540));
    for d in [111, 113, 124] {
        let (refused, area) = steel(2_195_000, 1_000, 150, d, 30, 420);
        assert!(refused == 0 && area != 540, "d {d}: {area}");
    }
}

/// "At t = 90 the default is 52, still in range." The least areas are 1.8·t: 162, 163.8, 270 and 900. At these depths
/// they carry 612360·25839600, 619920·26341200, 1020600·55986000 and 3402000·231840000 of 51000000: 310,257.6;
/// 320,185.03; 1,120,378.7 and 15,465,091.8. With 1 mm less of depth they carry thousands less, with 1 mm more
/// thousands more.
#[test]
fn default_depth_by_slab() {
    for (t, d, m, least) in [
        (90, 52, 310_257, 162),
        (91, 53, 320_185, 164),
        (150, 112, 1_120_378, 270),
        (500, 462, 15_465_091, 900),
    ] {
        let with = |m, d| answer(Query { t, d, ..strip(m) });
        assert_eq!(
            depth(Query {
                t,
                d: 0,
                ..strip(0)
            }),
            d
        );
        for d in [0, d] {
            assert_eq!(with(m, d), (0, least), "t {t}");
            assert_eq!(with(m + 1, d), (0, least + 1), "t {t}");
        }
        assert_ne!(with(m, d - 1), (0, least), "t {t}");
        assert_eq!(with(m + 1, d + 1), (0, least), "t {t}");
    }
}

/// The least and the greatest number below `end` that is in range at one place, and how many there are.
fn range(end: u128, query: impl Fn(u128) -> Query) -> (u128, u128, usize) {
    let in_range: Vec<u128> = (0..end)
        .filter(|&number| refusal(query(number)) != 11)
        .collect();
    (in_range[0], in_range[in_range.len() - 1], in_range.len())
}

/// Every number up to well past its range. The slab's thickness has d 0 beside it, the depth a t of 150,
/// so that 50 to 125 and 0 are 77 numbers.
#[test]
fn ranges_and_how_many_numbers_they_hold() {
    let strip = strip(0);
    let thick = Query { d: 0, ..strip };
    assert_eq!(range(70_000, |b| Query { b, ..strip }), (1, 12_000, 12_000));
    assert_eq!(range(2_000, |t| Query { t, ..thick }), (90, 500, 411));
    assert_eq!(range(2_000, |d| Query { d, ..strip }), (0, 125, 77));
    assert_eq!(range(600, |fc| Query { fc, ..strip }), (20, 60, 41));
    assert_eq!(range(2_000, |fy| Query { fy, ..strip }), (280, 520, 3));
    assert_eq!(range(10_000, |m| Query { m, ..strip }), (0, 9_999, 10_000));
}

/// At and past both ends of each range, the others as in `strip`.
#[test]
fn ends_of_ranges() {
    const FAR: u128 = u64::MAX as u128;
    let taken = [
        [0, 1_000, 150, 124, 30, 420],
        [0, 1, 150, 124, 30, 420],
        [0, 12_000, 150, 124, 30, 420],
        [0, 1_000, 90, 64, 30, 420],
        [0, 1_000, 500, 124, 30, 420],
        [0, 1_000, 150, 50, 30, 420],
        [0, 1_000, 150, 125, 30, 420],
        [0, 1_000, 90, 65, 30, 420],
        [0, 1_000, 500, 475, 30, 420],
        [0, 1_000, 150, 124, 20, 420],
        [0, 1_000, 150, 124, 60, 420],
        [0, 1_000, 150, 124, 30, 280],
        [0, 1_000, 150, 124, 30, 520],
    ];
    for numbers in taken {
        assert_eq!(refusal(Query::of(numbers)), 0, "{numbers:?}");
    }
    let past = [
        [2_000_000_001, FAR, FAR, FAR, FAR],
        [0, 12_001, 65_537, 1 << 32, FAR],
        [89, 501, 0, 25, FAR],
        [1, 49, 126, 150, FAR],
        [19, 61, 0, 1 << 32, FAR],
        [279, 281, 419, 521, FAR],
    ];
    for (place, numbers) in past.iter().enumerate() {
        for &number in numbers {
            let mut query = strip(0).numbers();
            query[place] = number;
            assert_eq!(refusal(Query::of(query)), 11, "{query:?}");
        }
    }
}

/// "M 0..2,000,000,000 N·cm": no slab of 150 bears the most, the widest and thickest does.
#[test]
fn greatest_moment_in_range() {
    assert_eq!(refusal(strip(2_000_000_000)), 12);
    assert_eq!(refusal(strip(2_000_000_001)), 11);
    assert_eq!(
        refusal(Query::of([2_000_000_000, 12_000, 500, 475, 60, 520])),
        0
    );
    assert_eq!(
        refusal(Query::of([2_000_000_001, 12_000, 500, 475, 60, 520])),
        11
    );
}

/// "d 50..t − 25"
#[test]
fn depths_up_to_25_less_than_the_slab() {
    for t in [90, 91, 150, 499, 500] {
        for (d, expected) in [(t - 26, 0), (t - 25, 0), (t - 24, 11), (t, 11)] {
            let query = Query { t, d, ..strip(0) };
            assert_eq!(refusal(query), expected, "t {t}, d {d}");
        }
    }
}

/// For t below 38 t − 38 is no number, and for t below 25 t − 25 is none either.
#[test]
fn slabs_thinner_than_their_cover() {
    for t in 0..90 {
        for d in [0, 1, 50, 52, 64] {
            assert_eq!(refusal(Query { t, d, ..strip(0) }), 11, "t {t}, d {d}");
        }
    }
}

/// Where both apply, 11: the moment is one that no area fits.
#[test]
fn refusal_11_is_tried_first() {
    assert_eq!(steel(20_000_000, 1_000, 150, 124, 30, 421), (11, 0));
    assert_eq!(steel(0, 1, 500, 49, 20, 280), (11, 0));
}

/// "K = 1190 up to fc 28, 910 from 56, between them 1470 − 10·fc"
#[test]
fn k_by_strength() {
    for (fc, expected) in [
        (20, 1190),
        (27, 1190),
        (28, 1190),
        (29, 1180),
        (42, 1050),
        (55, 920),
        (56, 910),
        (57, 910),
        (60, 910),
    ] {
        assert_eq!(k(fc), expected, "fc {fc}");
    }
}

/// The least area asks for 2·1000·150/1000 = 300, 756·1000·150/420000 = 270 or, of 756·1000·150/520000,
/// for 219 where 218.08 is not enough. It carries 9·As·fy·(17·fc·b·d − 10·As·fy)/(1700·fc·b), for
/// fy 420 and fc 30 1,242,850.7.
#[test]
fn minimum_governs() {
    for (fc, fy, m, least) in [
        (30, 420, 1_242_850, 270),
        (28, 280, 924_098, 300),
        (28, 420, 1_241_229, 270),
        (60, 520, 1_259_457, 219),
    ] {
        let with = |m| answer(Query { fc, fy, ..strip(m) });
        assert_eq!(with(0), (0, least));
        assert_eq!(with(m), (0, least));
        assert_eq!(with(m + 1), (0, least + 1));
    }
}

/// The greatest area is 51·K·fc·b·d/(224000·fy) rounded down, for fy 420 and fc 30 of 2359.4.
#[test]
fn strain_limit_governs() {
    for (fc, fy, m, greatest) in [
        (30, 420, 9_324_790, 2_359),
        (28, 280, 8_823_682, 3_359),
        (28, 420, 8_822_617, 2_239),
        (29, 420, 9_077_029, 2_300),
        (55, 420, 13_977_161, 3_401),
        (56, 420, 14_097_405, 3_425),
        (60, 520, 15_104_616, 2_964),
    ] {
        let with = |m| answer(Query { fc, fy, ..strip(m) });
        assert_eq!(with(m), (0, greatest), "fc {fc}, fy {fy}");
        assert_eq!(with(m + 1), (12, 0), "fc {fc}, fy {fy}");
    }
}

/// The minimum of 1 mm² is past the strain limit: 224000·280 = 62,720,000 and 51·1190·20·50 =
/// 60,690,000. At fc 21 it is not.
#[test]
fn no_area_fits_without_a_moment() {
    assert_eq!(steel(0, 1, 500, 50, 20, 280), (12, 0));
    assert_eq!(steel(0, 1, 500, 50, 21, 280), (0, 1));
}

/// The minimum is 9.9 and the strain limit leaves 9.93, with no whole number between. At b 10 they are
/// 9 and 9.03.
#[test]
fn no_whole_area_fits() {
    assert_eq!(steel(0, 11, 500, 50, 28, 420), (12, 0));
    assert_eq!(steel(0, 10, 500, 50, 28, 420), (0, 9));
}

/// An As so large that the bracket is below 0 carries nothing: 17·30·1000·124 is 15,057.1 times 4200.
#[test]
fn bracket_below_0() {
    assert!(moment_is_carried(strip(0), 15_057));
    assert!(!moment_is_carried(strip(0), 15_058));
    assert!(!moment_is_carried(strip(1), 1_000_000));
}
