//! What changes nothing in a text map but places, and decimals bit by bit, all asked of the proved library.

use compare::without_places;
use generator::{decimal, Blanks, Rng, TextSpec};
use meshpigeon::text::{map, Vertex};

/// How many texts are tried with each kind of change.
const TEXTS: u64 = 20_000;

/// Holds that a changed text says the same.
fn hold(changed: impl Fn(&TextSpec, &mut Rng) -> Vec<u8>) {
    let mut blocks = 0;
    for index in 0..TEXTS {
        let mut rng = Rng::of_case(20_261_116, index);
        let spec = TextSpec::any(8, &mut rng);
        let (text, _) = spec.written(Blanks::Usual, &mut rng);
        let other = changed(&spec, &mut rng);
        let [one, two] = [&text, &other].map(|text| without_places(text));
        blocks += spec.counts.iter().sum::<usize>();
        assert!(one.is_ok(), "text {index} is refused");
        assert_eq!(one, two, "text {index}:\n{}\n\n{}", text.escape_ascii(), other.escape_ascii());
    }
    assert!(blocks as u64 > TEXTS);
}

#[test]
fn white_space_and_comments_change_nothing_but_places() {
    hold(|spec, rng| spec.written(Blanks::Wild, rng).0);
    hold(|spec, rng| spec.written(Blanks::Tight, rng).0);
}

#[test]
fn the_case_of_letters_in_names_and_keywords_changes_nothing() {
    for index in 0..TEXTS {
        let mut rng = Rng::of_case(20_261_117, index);
        let spec = TextSpec::any(8, &mut rng);
        let other = spec.recased(&mut rng);
        let texts = [&spec, &other].map(|spec| spec.written(Blanks::Tight, &mut Rng::new(1)).0);
        let [one, two] = texts.each_ref().map(|text| without_places(text));
        assert!(one.is_ok() && one == two, "text {index}");
        assert_eq!(map(&texts[0]), map(&texts[1]), "text {index}");
    }
}

#[test]
fn an_assignment_to_an_unknown_name_between_two_statements_changes_nothing_but_places() {
    hold(|spec, rng| spec.with_strangers(rng).written(Blanks::Usual, rng).0);
    hold(|spec, rng| spec.with_strangers(rng).recased(rng).written(Blanks::Wild, rng).0);
}

/// The digits as a whole number, divided once by the power of ten, and negated for a minus sign.
fn divided(decimal: &str) -> f64 {
    let size = decimal.trim_start_matches(['+', '-']);
    let behind = size.len() - 1 - size.find('.').expect("a point");
    let digits: u64 = size.replace('.', "").parse().expect("digits");
    let quotient = digits as f64 / 10_f64.powi(behind as i32);
    if decimal.starts_with('-') {
        -quotient
    } else {
        quotient
    }
}

#[test]
fn a_million_decimals_are_what_one_division_gives_and_what_rust_reads() {
    let mut rng = Rng::new(61);
    let mut tried = 0;
    while tried < 1_000_000 {
        let decimals: Vec<[String; 2]> = (0..62_500).map(|_| [decimal(&mut rng), decimal(&mut rng)]).collect();
        let text: String = decimals.iter().map(|[x, y]| format!("vertex{{x={x};y={y};}}")).collect();
        let mut place = 0;
        for [x, y] in &decimals {
            let (vertex, next) = Vertex::read_at(text.as_bytes(), place).expect("a good vertex");
            for (decimal, double) in [(x, vertex.x), (y, vertex.y)] {
                assert_eq!(double.to_bits(), divided(decimal).to_bits(), "{decimal} by one division");
                assert_eq!(double.to_bits(), decimal.parse::<f64>().expect("a decimal").to_bits(), "{decimal} in Rust");
                tried += 1;
            }
            place = next;
        }
    }
}
