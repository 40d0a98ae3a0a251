//! The page driven in a real browser, where Chromium is installed: wheel, drag, clicks and switches, and the sheet printed.

use crate::common::Desk;
use crate::large;
use std::process::{Command, Stdio};
use std::time::Instant;

const BROWSERS: [&str; 4] = ["chromium", "chromium-browser", "google-chrome", "chrome"];
const DRIVE: &str = include_str!("drive.js");
/// What drive.js tries, a line each.
const TRIED: usize = 15;

/// The first browser that starts.
fn browser() -> Option<&'static str> {
    let starts =
        |name: &&&str| Command::new(name).arg("--version").stdout(Stdio::null()).stderr(Stdio::null()).status().is_ok_and(|s| s.success());
    BROWSERS.iter().find(starts).copied()
}

/// What a browser without a window prints, given these words and a page; each with settings of its own.
fn run(browser: &str, desk: &Desk, words: &[&str], page: &str) -> Vec<u8> {
    let settings = format!("--user-data-dir={}", desk.place.join("settings").display());
    let always = ["--headless", "--no-sandbox", "--disable-gpu", "--window-size=1200,800", &settings];
    let url = format!("file://{}", desk.place.join(page).display());
    let output = Command::new(browser).current_dir(&desk.place).args(always).args(words).arg(url).output().expect("the browser starts");
    output.stdout
}

/// Opens a page, does what drive.js says, and gives its lines: `ok` or `failed`, and what was tried.
fn driven(browser: &str, desk: &Desk, page: &str) -> Vec<String> {
    let text = desk.get(page).replace("</body>", &format!("<script>\n{DRIVE}</script>\n</body>"));
    desk.put("driven.html", text);
    let dom = run(browser, desk, &["--virtual-time-budget=20000", "--dump-dom"], "driven.html");
    let dom = String::from_utf8_lossy(&dom);
    let told = dom.split("<pre id=\"driven\">").nth(1).and_then(|after| after.split("</pre>").next()).unwrap_or("nothing was driven");
    told.lines().map(str::to_string).collect()
}

fn all_well(lines: &[String]) {
    assert!(lines.len() == TRIED && lines.iter().all(|line| line.starts_with("ok ")), "{lines:#?}");
}

/// The widths and heights of the pages that a drawing is printed on, in points.
fn printed(browser: &str, desk: &Desk, drawing: &str) -> Vec<String> {
    run(browser, desk, &["--no-pdf-header-footer", "--print-to-pdf=printed.pdf"], drawing);
    let pdf = std::fs::read(desk.place.join("printed.pdf")).expect("a PDF");
    let text = String::from_utf8_lossy(&pdf);
    text.split("/MediaBox [").skip(1).filter_map(|after| after.split(']').next()).map(str::to_string).collect()
}

#[test]
fn the_page_in_a_browser() {
    let Some(browser) = browser() else {
        println!("no Chromium here: the page was not driven");
        return;
    };
    let desk = Desk::with_plan("browser");
    desk.put("list.txt", "7\t3\t0\t1\tpit\n3\t9\t9\t0\tgone\n8\t2\t2\t1\tnick\n2\t-1\t0\t0\trim\n");
    desk.good("draw plan.full --findings list.txt --over base.full --html -o page.html -q");
    all_well(&driven(browser, &desk, "page.html"));
    desk.good("draw plan.full --findings list.txt --over base.full -o sheet.svg -q");
    for (drawing, count) in [("page.html", 2), ("sheet.svg", 1)] {
        let sizes = printed(browser, &desk, drawing);
        assert!(sizes.len() == count && sizes.iter().all(|size| is_a4(size)), "{drawing}: {sizes:?}");
    }
}

/// 210 by 297 millimetres, a point of 72 an inch more or less.
fn is_a4(size: &str) -> bool {
    let numbers: Vec<f64> = size.split_whitespace().filter_map(|field| field.parse().ok()).collect();
    matches!(numbers[..], [x, y, w, h] if x == 0.0 && y == 0.0 && (w - 595.3).abs() < 1.0 && (h - 841.9).abs() < 1.0)
}

#[test]
fn a_large_page_in_a_browser() {
    let Some(browser) = browser() else {
        println!("no Chromium here: the large page was not driven");
        return;
    };
    let desk = Desk::new("large-browser");
    let table = large::fine();
    let vertices = large::put(&desk, "plan.full", &table);
    desk.put("list.txt", "7\t3\t0\t1\tpit\n3\t900\t9\t0\tgone\n8\t2\t2\t1\tnick\n2\t-1\t0\t0\tdent\n");
    desk.good("draw plan.full --over plan.full --findings list.txt --html -o page.html -q");
    let before = Instant::now();
    all_well(&driven(browser, &desk, "page.html"));
    println!("{vertices} vertices: opened and driven in {:.1} s", before.elapsed().as_secs_f64());
}
