//! The style sheet of the page.

use crate::relations::LOOKS;

/// The colours and dashes of the relations, and then what is the same for all.
pub fn style() -> String {
    let colours = |ground: usize| -> String {
        LOOKS.iter().map(|look| format!(" --{}: {};", look.short, look.colours[ground])).collect()
    };
    let dashes = LOOKS.iter().map(|look| {
        let short = look.short;
        format!(".{short} {{ --colour: var(--{short}); --dashes: {}; }}\n", look.dashes)
    });
    format!(
        "\n:root {{{} }}\n@media screen and (prefers-color-scheme: dark) {{ :root {{{} }} }}\n{}{}",
        colours(0),
        colours(1),
        dashes.collect::<String>(),
        include_str!("style.css")
    )
}
