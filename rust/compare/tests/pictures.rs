//! Columns that share runs of empty posts: the library's notes on them change no verdict and no pixel.

use generator::{shared_runs, Rng};

#[test]
fn shared_runs_are_painted_as_the_reader_paints_them() {
    let mut rng = Rng::new(27);
    let mut good = 0;
    for turn in 0..400 {
        let lump = shared_runs(&mut rng);
        let (mut ours, mut theirs) = ([vec![7; 8_000], vec![7; 8_000]], [vec![7; 8_000], vec![7; 8_000]]);
        let [colour, cover] = &mut ours;
        let answer = meshpigeon::paint_picture(&lump, colour, cover).map(|it| it.width).map_err(|it| it.number);
        let [colour, cover] = &mut theirs;
        assert_eq!(answer, reader::paint_picture(&lump, colour, cover).map(|it| it.width).map_err(|it| it.number), "{turn}");
        assert!(ours == theirs, "{turn}");
        good += usize::from(answer.is_ok());
    }
    assert!((100..300).contains(&good), "{good}");
}
