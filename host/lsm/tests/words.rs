// Turning descriptions and refusals into words and back. No library is needed.
use lsm::{Description, Kind, Order, PixelSize, Refusal, ZStep};

fn plain() -> Description {
    Description {
        order: Order::Big,
        kind: Kind::I16,
        t: 1,
        c: 2,
        z: 3,
        y: 4,
        x: 5,
        scenes: 6,
        pages_per_time_point: 3,
        strips_per_channel: 7,
        pixel_size: None,
        channel_block: None,
        time_points: 8,
        interleaved: false,
    }
}

#[test]
fn descriptions_go_to_words_and_back() {
    let size = |z| Some(PixelSize { x: 0.5, y: f32::INFINITY, z });
    for pixel_size in
        [None, size(ZStep::Used(2.0)), size(ZStep::None), size(ZStep::Placeholder(1e-13)), size(ZStep::TooLarge(5e5))]
    {
        for channel_block in [None, Some(0), Some(0x7fff_ffff)] {
            let d = Description { pixel_size, channel_block, ..plain() };
            assert_eq!(Description::from_words(&d.words()), Some(d));
        }
    }
    assert_eq!(plain().words(), [1, 2, 1, 2, 3, 4, 5, 6, 3, 7, 0, 0, 0, 0, 0, 0, 0, 8, 0]);
}

// Any number of time points is a description's, also one that differs from what t is held to.
#[test]
fn the_time_points_of_the_layout_are_a_word_of_their_own() {
    for (t, time_points) in [(1, 1), (40, 40), (40, 0), (0, 2), (1, usize::MAX)] {
        let d = Description { t, time_points, ..plain() };
        assert_eq!((d.words()[2], d.words()[17]), (t, time_points));
        assert_eq!(Description::from_words(&d.words()), Some(d));
    }
}

// The flag is a description's with any number of channels and strips.
#[test]
fn interleaved_channels_are_a_word_of_their_own() {
    for (c, strips_per_channel) in [(3, 1), (1, 1), (0, 0), (2, usize::MAX)] {
        for (interleaved, word) in [(false, 0), (true, 1)] {
            let d = Description { c, strips_per_channel, interleaved, ..plain() };
            assert_eq!((d.words()[3], d.words()[9], d.words()[18]), (c, strips_per_channel, word));
            assert_eq!(Description::from_words(&d.words()), Some(d));
        }
    }
}

#[test]
fn words_that_are_no_description() {
    let good = Description { pixel_size: Some(PixelSize { x: 1.0, y: 1.0, z: ZStep::Used(1.0) }), ..plain() }.words();
    let choices = [(0, 2), (1, 4), (10, 2), (13, 4), (15, 2), (18, 2), (18, usize::MAX)];
    let floats = [(11, 1 << 32), (12, 0x7fc0_0000), (14, 0xff80_0001)];
    for (at, word) in choices.into_iter().chain(floats) {
        let mut w = good;
        w[at] = word;
        assert_eq!(Description::from_words(&w), None, "word {at}");
    }
}

#[test]
fn refusals_go_to_rows_and_back() {
    for row in [
        [1, 0, 0, 0, 0],
        [2, 0, 0, 0, 0],
        [3, 0, 0, 0, 0],
        [4, usize::MAX, 1 << 32, 0, 0],
        [5, 9, 2, 0, 0],
        [6, 1, 2, 3, 4],
        [7, 12, 0, 0, 0],
        [8, 0, 0, 0, 0],
        [9, 0, 0, 0, 0],
    ] {
        assert_eq!(Refusal::from_row(row).unwrap().row(), row);
    }
    for row in [[0, 0, 0, 0, 0], [10, 0, 0, 0, 0], [1, 1, 0, 0, 0], [7, 1, 1, 0, 0], [8, 1, 0, 0, 0], [8, 0, 0, 0, 1], [9, 1, 0, 0, 0]] {
        assert_eq!(Refusal::from_row(row), None);
    }
}
