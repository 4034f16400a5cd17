//! Pictures: what is in them, not where it stands.

mod xml;

use play::rows::Place;
use play::session::Session;
use play::svg::svg;
use xml::elements;

fn drawn(lines: &str) -> String {
    let mut session = Session::fresh();
    for (number, line) in (1..).zip(lines.lines()) {
        session.play(number, line);
    }
    let played = lines.lines().enumerate().last().map(|(place, line)| (place + 1, line));
    let picture = svg(&session.standing(), &Place { name: "the <test> & more", played });
    check(&picture);
    picture
}

/// The picture is well-formed, and everything stands right of and below the corner.
fn check(picture: &str) {
    let elements = elements(picture);
    assert_eq!(elements[0].tag.get("xmlns"), "http://www.w3.org/2000/svg");
    assert!(!picture.contains("=\"-"));
}

/// All texts of a picture, one after another.
fn words(picture: &str) -> String {
    let texts = elements(picture).into_iter().filter(|element| element.tag.name == "text");
    texts.map(|element| element.text + " ").collect()
}

/// How many elements have exactly this class.
fn count(picture: &str, class: &str) -> usize {
    picture.matches(&format!("class=\"{class}\"")).count()
}

fn inserts(keys: impl Iterator<Item = u64>) -> String {
    keys.map(|key| format!("1 insert {key} record {key}\n")).collect()
}

/// Keys from 1 on, settled in groups so that the locks suffice.
fn settled(keys: u64) -> String {
    let groups = (0..keys).step_by(200).map(|from| {
        format!("1 begin\n{}1 commit\n", inserts(from + 1..(from + 201).min(keys + 1)))
    });
    groups.collect()
}

#[test]
fn a_fresh_desk_has_an_empty_page_and_the_end() {
    let picture = drawn("");
    assert!(picture.contains(">Before the first request<"));
    assert!(picture.contains(">empty<"));
    assert!(picture.contains(">none is running<"));
    assert_eq!(count(&picture, "page leaf"), 1);
    assert_eq!(count(&picture, "entry end"), 1);
    assert_eq!(count(&picture, "tip"), 1, "only the legend's arrow");
    assert_eq!(count(&picture, "tip dashed"), 1, "only the legend's arrow");
}

#[test]
fn the_title_names_the_line_and_the_session() {
    let picture = drawn("1 begin\n1 read 5..9");
    assert!(picture.contains(">After line 2: 1 read 5..9<"));
    assert!(picture.contains("the &lt;test&gt; &amp; more: 0 entries, 1 level"));
}

#[test]
fn entries_have_the_colour_of_their_state_and_locks_their_holders() {
    let asked = "2 begin\n3 begin\n2 delete 2\n2 insert 4 record 9\n2 read 1..1\n3 read 1..1\n\
                 3 read 3..3\n3 delete 2\n";
    let picture = drawn(&(settled(3) + asked));
    assert_eq!(count(&picture, "entry settled"), 2, "1 and 3");
    assert_eq!(count(&picture, "entry ghost"), 1, "2");
    assert_eq!(count(&picture, "entry owned"), 1, "4");
    assert_eq!(count(&picture, "lock S"), 2, "on 1 and 3");
    assert_eq!(count(&picture, "lock X"), 2, "on 2 and 4");
    assert!(picture.contains(">S 2, 3<"));
    assert!(picture.contains(">ghost of 2, before record 2<"));
    assert!(picture.contains(">record 9, by 2, before absent<"));
}

/// How many full arrows a picture has, and how many dashed ones. Each has its tip.
fn arrows(picture: &str) -> (usize, usize) {
    let (full, dashed) = (count(picture, "arrow"), count(picture, "arrow dashed"));
    assert_eq!((count(picture, "tip"), count(picture, "tip dashed")), (full, dashed));
    (full, dashed)
}

#[test]
fn who_waits_is_drawn_at_its_target_and_with_an_arrow_to_whom_it_waits_behind() {
    let asked = "2 begin\n3 begin\n4 begin\n2 delete 2\n3 delete 2\n4 read 2..2\n";
    let picture = drawn(&(settled(3) + asked));
    assert_eq!(count(&picture, "card"), 1, "2 runs");
    assert_eq!(count(&picture, "card waits"), 2);
    let words = words(&picture);
    assert!(
        words.contains(" waits behind 2, who holds X on 2 delete 2 wants X on 2 holds nothing ")
    );
    assert!(picture.contains(">delete 2 wants X<"));
    assert!(picture.contains(">read 2..2 wants S<"));
    assert!(!words.contains("left out"));
}

/// 3 waits behind 2, and 4 behind 2 and 3. Of these 2 is named: strong words and a full arrow.
#[test]
fn who_is_named_is_drawn_apart_from_the_others_in_the_way() {
    let asked = "2 begin\n3 begin\n4 begin\n2 delete 2\n3 delete 2\n4 read 2..2\n";
    let picture = drawn(&(settled(3) + asked));
    let texts = |class: &str| -> Vec<String> {
        let elements = elements(&picture).into_iter().filter(|element| element.tag.name == "text");
        let of_class = elements.filter(|element| element.tag.get("class") == class);
        of_class.map(|element| element.text).collect()
    };
    let named = "waits behind 2, who holds X on 2".to_string();
    assert_eq!(texts("strong").iter().filter(|text| **text == named).count(), 2, "3 and 4");
    let also = "also in the way is 3, who asked for it before".to_string();
    assert_eq!(texts("").iter().filter(|text| **text == also).count(), 1, "4");
    let (to_target, to_named, to_others) = (1, 2, 1);
    assert_eq!(arrows(&picture), (to_target + to_named + 1, to_others + 1), "and the legend's");
    let legend = texts("note").join(", ");
    let both = "waits, and behind whom: the lowest number in the way, also in the way";
    assert!(legend.contains(both), "{legend}");
}

/// The arrows from card to card, which are curves: the class of each, and how far down it ends, which
/// is the last number of its path.
fn between_cards(picture: &str) -> Vec<(String, i32)> {
    let elements = elements(picture).into_iter();
    let curves = elements.filter(|element| {
        element.tag.get("class").starts_with("arrow") && element.tag.get("d").contains('C')
    });
    let end = |path: &str| path.rsplit(' ').next().and_then(|end| end.parse().ok());
    let both = |curve: xml::Element| {
        (curve.tag.get("class").to_string(), end(curve.tag.get("d")).expect("a number"))
    };
    curves.map(both).collect()
}

/// 4 waits behind 2 and 3, who hold S on 2. The full arrow goes to 2, though 3 read before it: the
/// cards of those who run stand by number, that of 2 above that of 3.
#[test]
fn the_full_arrow_goes_to_the_lowest_number() {
    let asked = "2 begin\n3 begin\n4 begin\n3 read 2..2\n2 read 2..2\n4 delete 2\n";
    let arrows = between_cards(&drawn(&(settled(3) + asked)));
    let [(dashed, to_other), (full, to_named)] = &arrows[..] else { panic!("{arrows:?}") };
    assert_eq!((full.as_str(), dashed.as_str()), ("arrow", "arrow dashed"));
    assert!(to_named < to_other, "{arrows:?}");
}

/// 4 and 5 wait behind 2 and 3, and 5 behind 4 too. Where arrows meet, those to 2 are to be seen.
#[test]
fn full_arrows_lie_over_dashed_ones() {
    let asked = "2 begin\n3 begin\n4 begin\n5 begin\n3 read 2..2\n2 read 2..2\n4 delete 2\n\
                 5 delete 2\n";
    let arrows = between_cards(&drawn(&(settled(3) + asked)));
    let classes: Vec<&str> = arrows.iter().map(|(class, _)| class.as_str()).collect();
    let (dashed, full) = ("arrow dashed", "arrow");
    assert_eq!(classes, [dashed, dashed, dashed, full, full]);
}

/// 3 waits behind 2; 4 behind 2 and 3; at last 16 behind 2 to 15. Of these 105 the 14 to 2, who is
/// named to all, are drawn, and from each but 3 the one to the request before; the legend says that
/// the rest is left out.
#[test]
fn among_many_arrows_those_in_more_steps_are_left_out() {
    let begins: String = (2..=16).map(|t| format!("{t} begin\n")).collect();
    let inserts: String = (3..=16).map(|t| format!("{t} insert 2 record {t}\n")).collect();
    let picture = drawn(&(settled(1) + &begins + "2 read 3..4\n" + &inserts));
    let words = words(&picture);
    let all = "waits behind 2, who holds S on the end \
               also in the way are 3-15, who asked for it before";
    assert!(words.contains(all));
    assert!(words.contains("78 arrows are left out: others lead there in more steps"));
    let (to_target, to_named, to_others) = (1, 14, 13);
    let (full_in_legend, dashed_in_legend) = (1 + 2, 1);
    let expected = (to_target + to_named + full_in_legend, to_others + dashed_in_legend);
    assert_eq!(arrows(&picture), expected);
}

/// 15 waits behind the readers 2 to 14, and nothing leads there in more steps: all are drawn. 16
/// waits behind them too, and behind 15: that arrow leads to all of them, and of the others the one
/// to 2 is drawn, who is named.
#[test]
fn many_arrows_that_nothing_stands_for_are_drawn() {
    let begins: String = (2..=16).map(|t| format!("{t} begin\n")).collect();
    let reads: String = (2..=14).map(|t| format!("{t} read 1..1\n")).collect();
    let picture = drawn(&(settled(1) + &begins + &reads + "15 delete 1\n"));
    let (to_target, to_named, to_others) = (1, 1, 12);
    assert_eq!(arrows(&picture), (to_target + to_named + 1, to_others + 1), "and the legend's");
    assert!(!words(&picture).contains("left out"));
    let picture = drawn(&(settled(1) + &begins + &reads + "15 delete 1\n16 delete 1\n"));
    let (to_target, to_named, to_others) = (1, 2, 12 + 1);
    let (full_in_legend, dashed_in_legend) = (1 + 2, 1);
    let expected = (to_target + to_named + full_in_legend, to_others + dashed_in_legend);
    assert_eq!(arrows(&picture), expected);
    assert!(words(&picture).contains("12 arrows are left out"));
}

/// The lines of a picture's title, each checked to stand within the picture.
fn title(picture: &str) -> Vec<String> {
    let elements = elements(picture);
    let number = |text: &str| text.parse::<usize>().expect("a number");
    let width = number(elements[0].tag.get("width"));
    let lines = elements.into_iter().filter(|element| element.tag.get("class") == "title");
    let within = |element: &xml::Element| {
        let letters = element.text.chars().count();
        number(element.tag.get("x")) + 11 * letters < width
    };
    lines.inspect(|line| assert!(within(line), "{}", line.text)).map(|line| line.text).collect()
}

#[test]
fn a_long_comment_in_the_title_is_broken_into_lines() {
    let comment =
        "the night job reads what a pupil has bowled, ball by ball, until there is no more";
    let picture = drawn(&format!("1 begin # {comment}"));
    let lines = title(&picture);
    assert_eq!(lines.join(" "), format!("After line 1: 1 begin # {comment}"));
    assert_eq!(lines.len(), 2);
}

#[test]
fn a_very_long_word_in_the_title_is_cut_and_so_is_a_comment_without_end() {
    let lines = title(&drawn(&format!("1 begin # {} end", "W".repeat(3000))));
    assert_eq!(lines.len(), 3);
    assert!(lines[1].ends_with("W…") && lines[1].len() > 60);
    assert_eq!(lines[2], "end");
    let lines = title(&drawn(&format!("1 begin # {}", "and so on ".repeat(1000))));
    assert_eq!(lines.len(), 4);
    assert!(lines[3].ends_with('…'));
}

#[test]
fn a_split_has_two_leaves_below_an_inner_page() {
    let picture = drawn(&settled(25));
    assert_eq!(count(&picture, "page leaf"), 2);
    assert_eq!(count(&picture, "page inner"), 1);
    assert_eq!(count(&picture, "separator"), 2);
    assert_eq!(count(&picture, "link"), 2);
    assert_eq!(count(&picture, "entry settled"), 25);
    assert!(picture.contains(">page 2, from 14<"));
}

/// "Ascending keys, settled in groups: 778 fit": three levels, and each leaf one row.
#[test]
fn a_full_index_is_condensed() {
    let picture = drawn(&settled(778));
    let (leaves, inner) = (count(&picture, "page leaf"), count(&picture, "page inner"));
    assert_eq!(leaves + inner, 63);
    assert_eq!(count(&picture, "separator"), leaves + inner - 1, "each page but the root");
    assert_eq!(count(&picture, "entry settled"), leaves);
    assert_eq!(count(&picture, "family"), inner - 1, "the pages of level 1");
    assert!(picture.contains(">1..13<") && picture.contains(">13 entries<"));
}

/// A lock covers the gap below its key also where that reaches back into the leaf before.
#[test]
fn a_gap_across_two_leaves_is_drawn_in_both() {
    let picture = drawn(&(settled(25) + "2 begin\n2 read 14..14\n"));
    assert_eq!(count(&picture, "lock S"), 1);
    let legend = 1;
    assert_eq!(count(&picture, "bar S"), 2 + legend);
}
