//! Whether the colours of a page can be told from their ground.

use crate::drawing::page;
use crate::reported::named;

/// The values of a colour in the style sheet, on white and on black.
fn values(style: &str, name: &str) -> Vec<[u8; 3]> {
    let start = format!("--{name}: #");
    let value = |rest: &str| [0, 2, 4].map(|at| u8::from_str_radix(&rest[at..at + 2], 16).unwrap());
    style.split(&start).skip(1).map(value).collect()
}

/// How bright a colour is, as WCAG 2 defines it.
fn luminance(colour: [u8; 3]) -> f64 {
    let part = |value: u8| {
        let share = f64::from(value) / 255.0;
        if share <= 0.04045 {
            share / 12.92
        } else {
            ((share + 0.055) / 1.055).powf(2.4)
        }
    };
    let [red, green, blue] = colour.map(part);
    0.2126 * red + 0.7152 * green + 0.0722 * blue
}

fn contrast(one: [u8; 3], other: [u8; 3]) -> f64 {
    let (one, other) = (luminance(one), luminance(other));
    (one.max(other) + 0.05) / (one.min(other) + 0.05)
}

#[test]
fn text_and_edges_stand_out_from_every_ground_in_light_and_dark() {
    let style = page(named("sb.order")).named("style")[0].text();
    for text in ["ink", "pale", "po", "rf", "mo", "fr"] {
        for ground in ["ground", "column", "box"] {
            let pairs: Vec<_> = values(&style, text).into_iter().zip(values(&style, ground)).collect();
            assert_eq!(pairs.len(), 2, "{text} on {ground}");
            for (text_value, ground_value) in pairs {
                let found = contrast(text_value, ground_value);
                assert!(found >= 4.5, "{text} on {ground}: {found:.2}");
            }
        }
    }
    assert!((contrast([0; 3], [255; 3]) - 21.0).abs() < 0.01);
}
