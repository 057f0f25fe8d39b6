//! Whatever stands in a model, its page is the same page with that text.

use answer::Report;

use crate::drawing::page;
use crate::reported::{with_graph, Reported};
use crate::xml::{parse, Element};

const TEXT: &str = "# </code></ol><script>alert(1)</script> & \"it's\" ]]> <!-- Grüße 待つ 🦀 &lt; -->\r\n\
    values 2\nlocations x y\nthread\n  x := 1 # <b>\n  r0 := y\nthread\n  y := 1\n  r0 := x\n";
const NAME: &str = "\"><img src=x onerror=alert(1)>'&\u{202e}\0.order";
const WORDS: &str = "</pre><script src=\"https://example.org\"></script>\n  & so on\n";

fn hostile() -> Element {
    let reported = Reported::on(NAME, TEXT);
    assert!(matches!(reported.report, Report::NotRobust { .. }));
    parse(&reported.html(WORDS)).unwrap()
}

#[test]
fn any_text_is_shown_as_it_is() {
    let page = hostile();
    let name = NAME.replace('\0', "\\u{0}").replace('\u{202e}', "\\u{202e}");
    assert_eq!(page.named("h1")[0].text(), name);
    assert_eq!(page.named("title")[0].text(), format!("{name}: not robust"));
    assert_eq!(page.named("pre")[0].text(), WORDS);
    let lines: Vec<String> = page.with_class("model")[0].elements().map(Element::text).collect();
    assert_eq!(lines, TEXT.lines().collect::<Vec<_>>());
}

/// The elements that the page of a plain model has.
fn names(page: &Element) -> Vec<String> {
    page.all().into_iter().map(|element| element.name.clone()).collect()
}

#[test]
fn no_text_becomes_an_element() {
    let plain = Reported::on("sb", &TEXT.replace(TEXT.lines().next().unwrap(), "# comment"));
    assert_eq!(names(&hostile()), names(&parse(&plain.html("words")).unwrap()));
}

#[test]
fn no_page_runs_a_script_or_asks_for_another_file() {
    for page in with_graph().iter().map(page).chain([hostile()]) {
        for element in page.all() {
            assert_ne!(element.name, "script");
            for (name, value) in element.attributes() {
                assert!(!name.starts_with("on") && name != "src" && name != "style", "{name}={value}");
                let is_local = value.starts_with('#') || value == "data:,";
                assert!(name != "href" || is_local, "{value}");
            }
        }
        let style = page.named("style")[0].text();
        assert!(!style.contains("url(") && !style.contains("@import"));
        let policy = page.named("meta")[1];
        assert_eq!(policy.attribute("http-equiv"), "Content-Security-Policy");
        assert!(policy.attribute("content").starts_with("default-src 'none'; style-src 'unsafe-inline';"));
    }
}

#[test]
fn long_names_stay_inside_their_boxes() {
    let long = "a_location_with_quite_a_long_name";
    let page = parse(&Reported::on("long", &TEXT.replace('x', long)).html("")).unwrap();
    let width = page.with_class("graph")[0].with_class("event")[0].named("rect")[0].number("width");
    assert!(width as usize >= 8 * format!("W {long} = 0").len(), "{width}");
}
