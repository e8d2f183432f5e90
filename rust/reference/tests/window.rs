// SPDX-License-Identifier: MIT
//! The window over the last 64 counters.

use reference::window::Window;
use testkit::Generator;

fn window(highest: u64, mask: u64) -> Window {
    Window { highest, mask }
}

/// The window once these counters were opened, in this order.
fn opened(counters: &[u64]) -> Window {
    let start = Window::default();
    counters
        .iter()
        .fold(start, |window, &ctr| window.opening(ctr))
}

#[test]
fn worked_examples() {
    assert_eq!(opened(&[0]), window(0, 1));
    assert_eq!(opened(&[5]), window(5, 1));
    assert_eq!(opened(&[0, 1, 2]), window(2, 0b111));
    assert_eq!(opened(&[2, 0]), window(2, 0b101));
    assert_eq!(opened(&[7, 4, 9]), window(9, 0b100101));
    // Jumps: at 63 the counter before is the last of the window, at 64 it is gone.
    assert_eq!(opened(&[10, 73]), window(73, 1 << 63 | 1));
    assert_eq!(opened(&[10, 74]), window(74, 1));
    assert_eq!(opened(&[10, 75]), window(75, 1));
    assert_eq!(opened(&[10, u64::MAX]), window(u64::MAX, 1));
    assert_eq!(opened(&[73, 10]), window(73, 1 << 63 | 1));
    let last = u64::MAX;
    assert_eq!(opened(&[last - 63, last]), window(last, 1 << 63 | 1));
}

#[test]
fn edges_of_a_distance() {
    let one = opened(&[100]);
    for (ctr, seen, past) in [
        (0, false, true),
        (36, false, true),
        (37, false, false),
        (99, false, false),
        (100, true, false),
        (101, false, false),
        (u64::MAX, false, false),
    ] {
        assert_eq!(
            (one.has_opened(ctr), one.is_past(ctr)),
            (seen, past),
            "{ctr}"
        );
    }
    // Nothing was opened: nothing is seen, and nothing lies behind.
    for ctr in [0, 1, 63, 64, u64::MAX] {
        let none = Window::default();
        assert!(!none.has_opened(ctr) && !none.is_past(ctr));
    }
}

#[test]
fn sound_windows() {
    for (highest, mask, sound) in [
        (0, 0, true),
        (1, 0, false),
        (0, 1, true),
        (0, 3, false),
        (1, 3, true),
        (2, 0b1001, false),
        (3, 0b1001, true),
        (2, 0b110, false),
        (62, u64::MAX, false),
        (63, u64::MAX, true),
        (u64::MAX, u64::MAX, true),
        (u64::MAX, u64::MAX - 1, false),
    ] {
        assert_eq!(
            window(highest, mask).is_sound(),
            sound,
            "{highest}, {mask:#b}"
        );
    }
}

/// Beside a plain list of what was opened.
#[test]
fn random_orders() {
    let mut generator = Generator::new(0x7769_6e64_6f77_0001);
    for _ in 0..200 {
        let mut start = generator.any_width();
        let (mut seen, mut state) = (vec![], Window::default());
        for _ in 0..200 {
            start = start.saturating_add(generator.up_to(3) as u64);
            if generator.one_in(50) {
                start = start.saturating_add(60 + generator.up_to(8) as u64);
            }
            let ctr = start.saturating_sub(generator.up_to(80) as u64);
            let highest = seen.iter().copied().max().unwrap_or(0);
            let past = !seen.is_empty() && u128::from(ctr) + 64 <= u128::from(highest);
            assert_eq!(state.is_past(ctr), past);
            if !past {
                assert_eq!(state.has_opened(ctr), seen.contains(&ctr));
                seen.push(ctr);
                state = state.opening(ctr);
                assert!(state.is_sound());
            }
        }
    }
}
