//! Drops the answer of every call over slices. tests/link compiles it and wants a warning for each.

pub fn ignored(
    shorts: &mut [u16],
    words: &mut [u32],
    numbers: &mut [u64],
    bytes: &mut [u8],
    doubles: &mut [f64],
) {
    tankcurve::version();
    tankcurve::slices::version();
    tankcurve::slices::number(8);
    tankcurve::slices::detail(8);
    tankcurve::slices::evaluate(&[], &[], 0, 1, numbers);
    tankcurve::slices::window(&[], &[], 0, 1, numbers);
    tankcurve::slices::advance(numbers, &[], &[], 0, 1);
    tankcurve::slices::turn(numbers, &[], &[], 0, 1);
    tankcurve::slices::row(&[0; 9], 0, 1, numbers);
    tankcurve::slices::smooth(&[], &[], &[0], &[1], numbers);
    tankcurve::slices::preview(&[], &[], &[0], &[1], numbers);
    tankcurve::slices::compare(&[], &[], &[], &[], &[0], &[1], numbers);
    tankcurve::slices::fill(0, 0, 0, shorts, words);
    tankcurve::slices::read(&[], &mut [], &mut [], shorts, words, numbers);
    tankcurve::slices::text(&[], bytes);
    tankcurve::slices::refusal_text(1, 0, bytes);
    tankcurve::slices::first_at_most(&[], &[], &[0], &[1], 0, numbers);
    tankcurve::slices::decisive(&[], &[], 0, 1, 0, numbers);
    tankcurve::slices::neighbours(&[], &[], &[0], 1, words, numbers);
    tankcurve::slices::biweight(&[], &[], 0, numbers);
    tankcurve::slices::doubles(0, 0, doubles);
    tankcurve::slices::smooth_ranges(&[], &[], &[], &[0], &[1], numbers);
    tankcurve::slices::read_ranges(&[], &mut [], &mut [], &mut [], shorts, words, numbers);
    tankcurve::slices::boxes(&[], &[], &[], &[0], &[1], &[0], &[1], numbers, words, &mut []);
    // The other calls give a `Result`, of which the language says the same.
    tankcurve::RunningSums::default().row(0, 1);
}
