//! The picture as one page for a browser, which asks for nothing from outside.

mod cell;

use super::markup::escaped;
use super::picture::{Domain, Picture, GIB_BLOCKS};
use super::section::{ranges, sections, summary, verdict, Entry, Section};
use std::fmt::Write;

/// Lines of a list, if the whole is not asked for.
const MOST: usize = 500;
/// Lent pages in a row.
const ROW_PAGES: usize = 16;
/// Lines of a list that are seen at once; the others come by scrolling.
const SEEN: usize = 12;

/// Nothing is fetched, even if a text of the page asked for it.
const HEAD: &str = r#"<!DOCTYPE html>
<html lang="en">
<head>
<meta charset="utf-8">
<meta http-equiv="Content-Security-Policy" content="default-src 'none'; style-src 'unsafe-inline'; script-src 'unsafe-inline'">
<meta name="viewport" content="width=device-width">
<title>Memory protection table</title>
<style>
"#;

/// Where the page tells of a cell.
const PANEL: &str = "<div id=\"panel\">Point at a cell: its address, its permission and its L2 entry are told here. \
                     A click keeps them here.</div>\n";

/// Lists are cut short unless the `whole` is asked for.
pub fn draw(picture: &Picture, whole: bool) -> String {
    let most = if whole { None } else { Some(MOST) };
    let mut page = format!("{HEAD}{}</style>\n</head>\n<body>\n", include_str!("page.css"));
    page += "<h1>Memory protection table</h1>\n";
    let _ = writeln!(page, "<p>{}</p>", escaped(&summary(picture)));
    let alarm = if picture.is_fine() { "" } else { " class=\"alarm\"" };
    let _ = writeln!(page, "<p id=\"verdict\"{alarm}>{}</p>", escaped(&verdict(picture)));
    for section in sections(picture, most) {
        let alarm = if section.alarm { " class=\"alarm\"" } else { "" };
        let _ =
            writeln!(page, "<section>\n<h2{alarm}>{}</h2>\n{}</section>", escaped(&section.heading()), table(&section));
    }
    page += "<div id=\"domains\">\n";
    for each in &picture.domains {
        page += &domain(picture, each, most);
    }
    page += "</div>\n";
    if picture.domains.is_empty() {
        page += "<p>No slot is open.</p>\n";
    }
    page += &pages(picture);
    page += &cell::legend();
    page += PANEL;
    let _ = write!(page, "<script>\n{}</script>\n</body>\n</html>\n", include_str!("page.js"));
    page
}

fn table(section: &Section) -> String {
    let alarm = if section.alarm { " class=\"alarm\"" } else { "" };
    let long = section.entries.len() > SEEN;
    let mut text = String::new();
    if long {
        let _ = writeln!(text, "<p class=\"scrolls\">{} lines: the list scrolls</p>", section.entries.len());
    }
    let _ = writeln!(text, "<div class=\"list{}\"><table{alarm}>", if long { " long" } else { "" });
    for entry in &section.entries {
        text += &row(entry);
    }
    text += "</table></div>\n";
    if let Some(rest) = section.rest(" (mpt map --whole lists them)") {
        let _ = writeln!(text, "<p>{rest}</p>");
    }
    text
}

fn row(entry: &Entry) -> String {
    let swatch =
        entry.permission.map_or(String::new(), |permission| format!("<i class=\"swatch {}\"></i>", permission.name()));
    let [place, size, what] = [&entry.place, &entry.size, &entry.what].map(|text| escaped(text));
    format!("<tr><td>{place}</td><td class=\"size\">{size}</td><td>{swatch}{what}</td></tr>\n")
}

fn domain(picture: &Picture, domain: &Domain, most: Option<usize>) -> String {
    let register = domain.register;
    let (slot, sdid, root) = (domain.slot, register.sdid().0, register.root().0);
    let mut text = format!("<section class=\"domain\" data-name=\"slot {slot}\">\n");
    let _ = writeln!(text, "<h2>Slot {slot}: SDID {sdid}</h2>");
    let _ = writeln!(text, "<p><code>mmpt {register}, root page {root:#x}</code></p>");
    text += "<div class=\"row marks\"><b style=\"grid-column: span 1\"></b>";
    for block in (0..GIB_BLOCKS as u64).step_by(8) {
        let _ = write!(text, "<b>+0x{:08x}</b>", block << 25);
    }
    text += "</div>\n";
    for gib in 0..domain.blocks.len() / GIB_BLOCKS {
        let _ = write!(text, "<div class=\"row\"><b>0x{:09x}</b>", (gib as u64) << 30);
        for number in gib * GIB_BLOCKS..(gib + 1) * GIB_BLOCKS {
            text += &cell::block(picture, domain, number);
        }
        text += "</div>\n";
    }
    text + &table(&ranges(domain, most)) + "</section>\n"
}

fn pages(picture: &Picture) -> String {
    let mut text = "<section data-name=\"lent\">\n<h2>Lent pages</h2>\n".to_string();
    let all: Vec<usize> = (0..picture.pages.len()).collect();
    for row in all.chunks(ROW_PAGES) {
        let _ = write!(text, "<div class=\"row pages\"><b>0x{:06x}</b>", picture.first + row[0] as u64);
        row.iter().for_each(|nth| text += &cell::page(picture, *nth));
        text += "</div>\n";
    }
    text + "</section>\n"
}

#[cfg(test)]
mod tests {
    use super::super::picture::tests::picture;
    use super::*;
    use crate::undone::Undone;

    const LINES: [&str; 5] =
        ["frame 31 0x40000 5", "open 0 5", "open 1 0", "edit 0 0 0x1000 rx 1536", "edit 1 0 0x1000 rw 1536"];

    #[test]
    fn every_block_and_page_is_a_cell_that_tells_of_itself() {
        let page = draw(&picture(&LINES), false);
        assert_eq!(page.matches("data-at=\"0x").count(), 2 * 64);
        assert_eq!(page.matches("data-at=\"0x000000000 to 0x001ffffff\" data-permission=\"rx in part\"").count(), 1);
        assert_eq!(page.matches("data-at=\"page 0x4000").count(), 5);
        let root = "data-at=\"page 0x40000, 0x040000000 to 0x040000fff; root of slot 0\"";
        assert!(page.contains(&format!("{root} data-permission=\"open to no domain\"")));
        assert!(page.contains("data-entry=\"L2 entry 0x0000400000040002, TYPE 4: by pages, L1 page 0x40002\""));
        assert!(page.contains("data-ranges=\"0x000000000 to 0x000000fff rx\""));
        assert!(page.contains("<h2 class=\"alarm\">! Open to more than one domain, and one of them may write"));
    }

    #[test]
    fn a_list_that_scrolls_says_so() {
        assert!(!draw(&picture(&LINES), false).contains("the list scrolls"));
        let mut lines: Vec<String> = LINES.map(str::to_string).to_vec();
        lines.extend((1..14).map(|page| format!("edit 0 {:#x} 0x1000 rx 1536", page * 0x2000)));
        let lines: Vec<&str> = lines.iter().map(String::as_str).collect();
        let page = draw(&picture(&lines), false);
        assert!(page.contains("14 lines: the list scrolls</p>\n<div class=\"list long\">"), "{page}");
    }

    #[test]
    fn the_page_asks_for_nothing_from_outside() {
        let page = draw(&picture(&LINES), false);
        for outside in ["http:", "https:", "//", "src=", "href=", "url(", "@import"] {
            let without = page.replace("// The panel tells", "").replace("style-src ", "").replace("script-src ", "");
            assert!(!without.contains(outside), "{outside}");
        }
    }

    #[test]
    fn what_a_script_says_is_no_markup() {
        let command = "load <img src=x onerror=alert(1)>\"&".to_string();
        let undone = vec![Undone { line: 3, command, why: "refused".to_string() }];
        let page = draw(&Picture { undone, ..picture(&LINES) }, false);
        assert!(
            page.contains("`load &lt;img src=x onerror=alert(1)&gt;&quot;&amp;`: refused") && !page.contains("<img")
        );
    }
}
