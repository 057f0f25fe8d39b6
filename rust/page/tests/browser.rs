//! Pages in a browser: chromium opens them, where it is installed, and hands back what it made of them.
#![forbid(unsafe_code)]

#[path = "all/reported.rs"]
mod reported;
#[path = "all/skip.rs"]
mod skip;

use std::fs::{self, File};
use std::path::{Path, PathBuf};
use std::process::{Child, Command, Stdio};
use std::thread::sleep;
use std::time::{Duration, Instant};

use reported::{models, named, Reported};
use skip::skipped;

/// The names that chromium goes by.
const BROWSERS: [&str; 3] = ["chromium", "chromium-browser", "google-chrome"];

/// Longer than any page takes.
const PATIENCE: Duration = Duration::from_secs(120);

/// What a browser made of a page.
struct Seen {
    /// The elements of the page, as text.
    dom: String,
    /// What it said on its console.
    console: Vec<String>,
}

/// The browser, if there is one; says so where there is none.
fn browser() -> Option<PathBuf> {
    let path = std::env::var_os("PATH").unwrap_or_default();
    let places: Vec<PathBuf> = std::env::split_paths(&path).collect();
    let found = BROWSERS.iter().flat_map(|name| places.iter().map(move |place| place.join(name)));
    let found = found.into_iter().find(|file| file.is_file());
    if found.is_none() {
        skipped("browser: skipped, no chromium");
    }
    found
}

/// Opens a page that is given as text. The name is that of its files in the folder for tests.
fn open(browser: &Path, name: &str, html: &str) -> Seen {
    let folder = Path::new(env!("CARGO_TARGET_TMPDIR"));
    let [page, dom, log, profile] =
        ["html", "dom", "log", "profile"].map(|ending| folder.join(format!("{name}.{ending}")));
    fs::write(&page, html).unwrap();
    let child = Command::new(browser)
        // Root has no sandbox, and the pages are ours.
        .args(["--headless", "--no-sandbox", "--disable-gpu", "--disable-dev-shm-usage", "--no-first-run"])
        .args(["--enable-logging=stderr", "--v=0", "--dump-dom"])
        .arg(format!("--user-data-dir={}", profile.display()))
        .arg(page)
        .stdin(Stdio::null())
        .stdout(File::create(&dom).unwrap())
        .stderr(File::create(&log).unwrap())
        .spawn();
    wait(child.unwrap_or_else(|error| panic!("{}: {error}", browser.display())), name);
    // What it keeps there is of no use later; where it is still writing, some of it stays.
    let _ = fs::remove_dir_all(&profile);
    let read = |file: &Path| String::from_utf8_lossy(&fs::read(file).unwrap()).into_owned();
    let console = read(&log).lines().filter(|line| line.contains("CONSOLE")).map(String::from).collect();
    Seen { dom: read(&dom), console }
}

/// Waits for the browser to end, and ends it after a time.
fn wait(mut child: Child, name: &str) {
    let start = Instant::now();
    while start.elapsed() < PATIENCE {
        if let Some(status) = child.try_wait().unwrap() {
            assert!(status.success(), "{name}: {status}");
            return;
        }
        sleep(Duration::from_millis(50));
    }
    child.kill().unwrap();
    child.wait().unwrap();
    panic!("{name}: not opened in {PATIENCE:?}");
}

/// The text between two others, the first time that both are there.
fn between<'a>(text: &'a str, start: &str, end: &str) -> Option<&'a str> {
    Some(text.split_once(start)?.1.split_once(end)?.0)
}

/// The page has its verdict and a box for each event that is drawn, and nothing is on the console.
fn is_shown(browser: &Path, reported: &Reported) {
    let Reported { name, source, report, .. } = reported;
    let Seen { dom, console } = open(browser, name, &reported.html("In words.\n"));
    assert_eq!(console, Vec::<String>::new(), "{name}");
    let verdict = between(&dom, "<p id=\"verdict\">", "</p>").unwrap_or_else(|| panic!("{name}: {dom}"));
    let shown = verdict.replace("<strong>", "").replace("</strong>", "");
    assert_eq!(shown, page::verdict(source, report), "{name}");
    let events = reported.events_drawn();
    for event in &events {
        let start = format!("id=\"event-{event}\">");
        let drawn = between(&dom, &start, "</g>").unwrap_or_else(|| panic!("{name}: no box {event}"));
        for part in ["<title>", "<rect ", "class=\"access\"", "class=\"origin\""] {
            assert_eq!(drawn.matches(part).count(), 1, "{name}: {drawn}");
        }
    }
    assert_eq!(dom.matches("id=\"event-").count(), events.len(), "{name}");
}

#[test]
fn a_browser_shows_verdict_and_events_without_a_word_on_its_console() {
    let Some(browser) = browser() else { return };
    for name in
        ["sb", "2+2w", "peterson-sc", "iriw", "long-run", "crowd", "page-ring-sc", "sixteen", "fences"]
    {
        is_shown(&browser, named(&format!("{name}.order")));
    }
    is_shown(&browser, models().iter().find(|model| model.execution.is_none()).unwrap());
}

#[test]
fn a_browser_runs_no_script_on_the_page_and_says_so() {
    let Some(browser) = browser() else { return };
    let script = "<script>document.body.id = 'changed'</script></body>";
    let html = named("sb.order").html("").replace("</body>", script);
    let Seen { dom, console } = open(&browser, "script", &html);
    assert!(dom.contains("<body>") && !dom.contains("<body id"), "{dom}");
    assert!(console.iter().any(|line| line.contains("Content Security Policy")), "{console:?}");
}
