//! What stands on a sheet beside the moments: its head, its tables, names that are no markup.

use crate::layers;
use crate::run::{root, scratch, slab, slab_on};
use crate::schedule::wide_beams;
use crate::sheet_parts::{article, pieces, sheet};
use floor::Floor;
use slab::sheet::date::today;
use std::collections::BTreeSet;
use std::fs;

fn garage() -> Vec<u8> {
    fs::read(root("example/garage.floor")).unwrap()
}

const FACTS: &str = "slab 200 mm, concrete fc 30 MPa, steel fy 420 MPa, \
                     dead load 7200 N/m² (slab included), live load 5000 N/m²";
const CLEAR: &str =
    "clear: no limit of the Direct Design Method is broken and the slab is thick enough";
const NOTES: &str = "Top and bottom say where in the slab the steel lies. \
                     Lines, spans and supports count from 0; x lines run west to east, y lines south to north. \
                     Column strip: beam and slab together.";
const OF_BARS: &str =
    "Bars: diameter @ spacing in mm; those of the column strip lie in its slab, beside the beam.";

/// The slab of the column strip is 1,750 less 200 wide and the middle strip 3,250 less 1,750: 756·200/420,000 of 1,550 and of 1,500
/// are 558 and 540 mm², which carry all but the last moment, for which 588 are needed. 79·1550/558 and 79·1500/540 are 219, 79·1500/588 is 201.
const FIRST_SPAN: &str = "
x line 0, south edge: spans from west to east
  span 0, 6600 mm, static moment 243.36 kN·m, exactly 243360 N·m
    section        steel   total                 column strip          middle strip          beam                  slab of column strip  bars, column strip    bars, middle strip
    west end       top        38.94  3893760        34.36  3435853         4.58  457907         29.21  2920475         5.16  515378      10 @ 210              10 @ 210
    between        bottom    138.72  13871520      107.83  10782332       30.90  3089188        91.65  9164982        16.18  1617350     10 @ 210              10 @ 210
    east end       top       170.36  17035200      132.42  13241460       37.94  3793740       112.56  11255241       19.87  1986219     10 @ 210              10 @ 200
  span 1, 7200 mm, ";

#[test]
fn the_text_of_the_garage() {
    let ran = sheet(&[], &garage());
    let moments =
        "Moments in kN·m, rounded up to the next 0.01, and after each the exact number in N·cm.";
    let notes = [moments, NOTES, OF_BARS, layers::NOTE].join(" ");
    let head = format!("a floor\na day\n{FACTS}\n{CLEAR}\n{notes}\n");
    assert!(
        ran.words().starts_with(&(head + FIRST_SPAN)),
        "{}",
        ran.words()
    );
    assert!(ran.words().lines().all(|line| line == line.trim_end()));
    assert!(ran.words().contains(
        "\n  larger moment of the two faces at each support\n     0  y line 0   top        38.94  3893760 "
    ));
}

const FIRST_ROWS: &str = "<section class=\"frame\">
<h2>x line 0, south edge: spans from west to east, moments in kN·m</h2>
<table class=\"spans\">
<thead><tr><th>span</th><th>length, mm</th><th>section</th><th>steel</th><th>total</th><th>column strip</th><th>middle strip</th>\
<th>beam</th><th>slab of column strip</th><th class=\"bars\">bars, column strip</th><th class=\"bars\">bars, middle strip</th></tr></thead>
<tbody>
<tr><th rowspan=\"3\">0</th><td rowspan=\"3\">6600</td><td>west end</td><td>top</td><td class=\"moment\">38.94</td>\
<td class=\"moment\">34.36</td><td class=\"moment\">4.58</td><td class=\"moment\">29.21</td><td class=\"moment\">5.16</td>\
<td class=\"bars\">10 @ 210</td><td class=\"bars\">10 @ 210</td></tr>
<tr><td>between</td><td>bottom</td><td class=\"moment\">138.72</td>";

const FIRST_SUPPORTS: &str = "</tbody>
</table>
<table class=\"supports\">
<caption>larger moment of the two faces at each support</caption>
<thead><tr><th>support</th><th>at</th><th>steel</th><th>total</th><th>column strip</th><th>middle strip</th><th>beam</th>\
<th>slab of column strip</th></tr></thead>
<tbody>
<tr><th>0</th><td>y line 0</td><td>top</td><td class=\"moment\">38.94</td>";

#[test]
fn the_page_of_the_garage() {
    let ran = sheet(&["--html"], &garage());
    let page = ran.words();
    let style = fs::read_to_string(root("web/style/sheet.css")).unwrap();
    assert!(page.starts_with("<!doctype html>\n"));
    assert!(page.contains("<meta charset=\"utf-8\">\n<title>a floor</title>\n"));
    assert!(page.contains(&format!("<style>\n{style}</style>")));
    let layers = layers::NOTE;
    let head = format!(
        "<article class=\"sheet clear\">\n<div class=\"head\">\n<h1>a floor</h1>\n<p class=\"date\">a day</p>\n</div>\n\
         <p class=\"facts\">{FACTS}</p>\n\
         <p class=\"standing\">{CLEAR}</p>\n\
         <p class=\"notes\">Moments in kN·m, rounded up to the next 0.01. {NOTES} {OF_BARS} {layers}</p>\n"
    );
    assert!(article(page).starts_with(&(head + FIRST_ROWS)), "{page}");
    assert!(page.contains(FIRST_SUPPORTS), "{page}");
}

const UNBARRED: &str = "No bars are shown. Refused 17: in some strip the beam leaves no width for bars, \
                        or no steel area fits the moment, or no bar of 10, 12 or 16 mm allows a spacing.";

/// Beams of 1,000 on spans of 2,000 leave nothing of the column strips inside. The moments stand.
#[test]
fn a_sheet_without_bars() {
    let file = wide_beams(1_000).bytes();
    let (text, page) = (sheet(&[], &file), sheet(&["--html"], &file));
    assert_eq!((text.status, page.status), (0, 0));
    let lines: Vec<&str> = text.words().lines().collect();
    assert_eq!(lines[3..5], [CLEAR, UNBARRED]);
    assert!(lines[5].ends_with(NOTES), "{}", lines[5]);
    assert!(!text.words().contains('@') && !text.words().contains("bars, column strip"));
    let page = article(page.words());
    assert!(
        page.contains(&format!(
            "<p class=\"standing\">{CLEAR}</p>\n<p class=\"unbarred\">{UNBARRED}</p>\n<p class=\"notes\">"
        )),
        "{page}"
    );
    assert!(page.contains(&format!("{NOTES}</p>")), "{page}");
    assert!(!page.contains('@') && !page.contains("\"bars\""));
    let barred = sheet(&[], &wide_beams(900).bytes());
    assert!(barred.words().contains("bars, middle strip") && !barred.words().contains(UNBARRED));
}

/// Edges by name, 5 by 4 bays: the y lines end at 5, the x lines at 4.
#[test]
fn the_frames_in_their_order() {
    let mut right = Vec::new();
    for (line, edge) in (0..).zip([", south edge", "", "", "", ", north edge"]) {
        right.push(format!("x line {line}{edge}: spans from west to east"));
    }
    for (line, edge) in (0..).zip([", west edge", "", "", "", "", ", east edge"]) {
        right.push(format!("y line {line}{edge}: spans from south to north"));
    }
    let (text, page) = (sheet(&[], &garage()), sheet(&["--html"], &garage()));
    let titles = text
        .words()
        .lines()
        .filter(|line| line.contains(": spans from "));
    assert!(titles.eq(&right));
    let titles = pieces(article(page.words())).into_iter();
    let right = right
        .iter()
        .map(|title| format!("{title}, moments in kN·m"));
    assert!(titles
        .filter(|piece| piece.contains(": spans from "))
        .eq(right));
}

/// Of y line 0: the ends by name, the x lines that cross, and bars on those along x, worked out beside the schedule's.
#[test]
fn a_frame_along_y() {
    let ran = sheet(&[], &garage());
    let (_, frame) = ran.words().split_once("\ny line 0, west edge").unwrap();
    let frame = frame.split("\n\n").next().unwrap();
    let starts = |start: &str| frame.lines().filter(|line| line.starts_with(start)).count();
    assert_eq!(
        [
            starts("    south end "),
            starts("    between "),
            starts("    north end ")
        ],
        [4; 3]
    );
    let (_, last) = frame.split_once("\n  span 3, 6400 mm, ").unwrap();
    let bars = last
        .lines()
        .skip(2)
        .take(3)
        .map(|row| &row[row.len() - 30..]);
    assert!(bars.eq([
        "10 @ 210              10 @ 160",
        "10 @ 210              10 @ 200",
        "10 @ 210              10 @ 210",
    ]));
    assert!(frame.contains("\n     4  x line 4   top "));
    assert!(!frame.contains("\n     5 "));
}

/// No text that is given becomes markup: the page has the elements of any other sheet.
#[test]
fn names_are_never_markup() {
    let hostile = "</h1><img src=x onerror=\"alert('1')\">&amp;</title></style><script>";
    let escaped = "&lt;/h1&gt;&lt;img src=x onerror=&quot;alert(&#39;1&#39;)&quot;&gt;&amp;amp;\
                   &lt;/title&gt;&lt;/style&gt;&lt;script&gt;";
    let mut broken = Floor::clear(3, 3);
    broken.t = 100;
    for file in [garage(), broken.bytes()] {
        let words = ["sheet", "--html", "-", "--name", hostile, "--date", hostile];
        let ran = slab_on(&words, &file);
        let page = ran.words();
        assert!(
            page.contains(&format!("<title>{escaped}</title>")),
            "{page}"
        );
        assert!(page.contains(&format!(
            "<h1>{escaped}</h1>\n<p class=\"date\">{escaped}</p>"
        )));
        assert_eq!(tags(page), tags(sheet(&["--html"], &file).words()));
    }
    let text = slab_on(&["sheet", "-", "--name", hostile], &garage());
    assert!(text.words().starts_with(&format!("{hostile}\n")));
}

fn tags(page: &str) -> BTreeSet<&str> {
    let tags = page.split('<').skip(1);
    tags.map(|rest| rest.split('>').next().unwrap()).collect()
}

/// A floor that is not clear cannot pass for one by its name.
#[test]
fn a_name_is_one_line() {
    let ran = slab_on(
        &[
            "sheet",
            "-",
            "--name",
            "a\nclear: yes\u{1b}[2J\r",
            "--date",
            "b\nc",
        ],
        &garage(),
    );
    assert!(
        ran.words()
            .starts_with("a clear: yes [2J\nb c\nslab 200 mm"),
        "{}",
        ran.words()
    );
}

fn first_line(words: &[&str], file: &[u8]) -> String {
    let ran = slab_on(words, file);
    assert_eq!(ran.status, 0, "{}", ran.stderr);
    ran.words().lines().next().unwrap().to_string()
}

#[test]
fn named_as_the_file() {
    assert_eq!(first_line(&["sheet", "-"], &garage()), "standard input");
    for (file, name) in [
        ("garage level 2.floor", "garage level 2"),
        ("a.b.txt", "a.b"),
        ("plain", "plain"),
    ] {
        let path = scratch(file);
        fs::write(&path, garage()).unwrap();
        assert_eq!(first_line(&["sheet", path.to_str().unwrap()], b""), name);
        let named = ["sheet", path.to_str().unwrap(), "--name", "Garage: south"];
        assert_eq!(first_line(&named, b""), "Garage: south");
    }
}

/// It may be midnight in between.
#[test]
fn dated_today() {
    let before = today().unwrap();
    let ran = slab_on(&["sheet", "-"], &garage());
    let after = today().unwrap();
    let said = ran.words().lines().nth(1).unwrap();
    assert!([before.as_str(), &after].contains(&said), "{said}");
}

#[test]
fn to_a_file() {
    for options in [&[][..], &["--html"]] {
        let path = scratch("garage sheet");
        let printed = sheet(options, &garage()).stdout;
        let ran = sheet(
            &[options, &["-o", path.to_str().unwrap()]].concat(),
            &garage(),
        );
        assert_eq!((ran.status, ran.stdout.len(), &ran.stderr[..]), (0, 0, ""));
        assert_eq!(fs::read(path).unwrap(), printed);
    }
}

#[test]
fn of_a_refused_floor_no_file_is_written() {
    let path = scratch("no sheet");
    let ran = sheet(&["-o", path.to_str().unwrap()], &garage()[16..]);
    assert_eq!((ran.status, ran.stdout.len()), (2, 0));
    assert!(ran.stderr.starts_with("slab: standard input: refused 2: "));
    assert!(!path.exists());
}

#[test]
fn of_a_broken_floor_the_file_is_written() {
    let path = scratch("broken sheet");
    let floor = Floor::clear(2, 3).bytes();
    let ran = sheet(&["-o", path.to_str().unwrap()], &floor);
    assert_eq!((ran.status, ran.stdout.len()), (1, 0));
    let written = fs::read_to_string(path).unwrap();
    assert!(written.contains("\n  there are fewer than three bays along x or along y\n"));
}

#[test]
fn a_sheet_that_cannot_be_written() {
    let folder = root("example");
    let ran = sheet(&["-o", folder.to_str().unwrap()], &garage());
    assert_eq!(ran.status, 3);
    assert!(
        ran.stderr.starts_with("slab: cannot write "),
        "{}",
        ran.stderr
    );
    let missing = slab(&["sheet", root("example/no.floor").to_str().unwrap()]);
    assert_eq!((missing.status, missing.stdout.len()), (3, 0));
    assert!(missing.stderr.starts_with("slab: cannot read "));
}
