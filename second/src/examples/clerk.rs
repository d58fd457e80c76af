//! The examples of the clerk's words `check`, `blank`, `card` and `outlook`, with their answers written by hand.

use super::{CARD_Q, DeskExample, LOOKED, SHEET_P, card_of, papers, parts_sheet, repeated, with_line};
use crate::papers::Papers;

fn of_sheet(name: &'static str, sheet: &str, output: &str) -> DeskExample {
    DeskExample { name, input: sheet.into(), output: output.into() }
}

fn of_papers(name: &'static str, papers: Papers, output: &str) -> DeskExample {
    DeskExample { name, input: papers.joined(), output: output.into() }
}

/// Lines 3 and 4 are a stage p and a stage c in it, the rules stand from line 5 on.
fn family(rules: &[&str]) -> String {
    with_rules("stage=p\nstage=c p\n", rules)
}

/// Lines 3 to 5 are miles a, b and c, the rules stand from line 6 on.
fn miles(rules: &[&str]) -> String {
    with_rules("mile=a\nmile=b\nmile=c\n", rules)
}

fn with_rules(statuses: &str, rules: &[&str]) -> String {
    let lines: String = rules.iter().map(|rule| format!("rule={rule}\n")).collect();
    format!("model=m\nevent=e\n{statuses}{lines}end={}\n", rules.len())
}

const NOTHING: &str = "model=m\nend=0\n";

fn not_pack() -> String {
    with_line(SHEET_P, 15, "rule=+pack if not pack\n")
}

/// A sheet alone is refused so by `check` and by `blank`.
fn refused_sheets() -> Vec<DeskExample> {
    vec![
        of_sheet("nothing at all", "", "refused=2 1 1\n"),
        of_sheet("32,768 bytes of x", &repeated("x", 32_768), "refused=2 1 1\n"),
        of_sheet("32,769 bytes of x", &repeated("x", 32_769), "refused=1 1 0\n"),
        of_sheet("34,305 bytes of x", &repeated("x", 34_305), "refused=1 1 0\n"),
        of_sheet("P without its last line", &with_line(SHEET_P, 16, ""), "refused=2 1 16\n"),
        of_sheet("P with a wrong count", &with_line(SHEET_P, 16, "end=4\n"), "refused=2 1 16\n"),
        of_sheet("P and an empty line", &format!("{SHEET_P}\n"), "refused=2 1 17\n"),
        of_sheet("P and Q", &format!("{SHEET_P}{CARD_Q}"), "refused=2 1 17\n"),
        of_sheet("a circle and bytes behind the sheet", &format!("{}x", not_pack()), "refused=2 1 17\n"),
        of_sheet("a wrong name", &with_line(SHEET_P, 9, "mile=review\n"), "refused=3 1 9\n"),
        of_sheet("a wrong number", &with_line(SHEET_P, 13, "rule=+fit if income<05\n"), "refused=4 1 13\n"),
        of_sheet("a wrong condition", &with_line(SHEET_P, 15, "rule=+pack if fit review\n"), "refused=5 1 15\n"),
    ]
}

/// What the clerk's program prints with the word `check`.
pub fn check_examples() -> Vec<DeskExample> {
    let mut examples = refused_sheets();
    let counts = |model, counts: [usize; 6]| {
        let [fields, events, stages, miles, rules, leaves] = counts;
        format!(
            "model={model}\nfields={fields}\nevents={events}\nstages={stages}\nmiles={miles}\nrules={rules}\nleaves={leaves}\n"
        )
    };
    examples.extend([
        of_sheet("P", SHEET_P, &counts("parcel", [2, 3, 2, 2, 5, 5])),
        of_sheet("a sheet with no status", NOTHING, &counts("m", [0; 6])),
        of_sheet("-p on +c alone", &family(&["-p on +c"]), &counts("m", [0, 1, 2, 0, 1, 0])),
        of_sheet("leaves of one rule", &family(&["+c if not (p or p) and p"]), &counts("m", [0, 1, 2, 0, 1, 3])),
    ]);
    let circles = [circles_of_one(), closings(), first_lines(), walks()].concat();
    for (name, sheet, edges) in circles {
        let lines: String = edges.iter().map(|edge| format!("circle={edge}\n")).collect();
        examples.push(of_sheet(name, &sheet, &format!("refused=7 1 0\n{lines}")));
    }
    examples.push(full_ring());
    examples.push(full_chain());
    examples
}

/// A sheet and the edges of its circle.
type Circle = (&'static str, String, Vec<&'static str>);

fn circles_of_one() -> Vec<Circle> {
    vec![
        ("P with line 15 rule=+pack if not pack", not_pack(), vec!["+pack +pack 15"]),
        ("a fall on itself", miles(&["-b on -b"]), vec!["-b -b 6"]),
        ("a fall on itself, and one waits before it", miles(&["+a on -c", "-c on -c"]), vec!["-c -c 7"]),
        ("two circles of one, the lower is told", miles(&["-c if c", "+c if c"]), vec!["+c +c 7"]),
    ]
}

fn closings() -> Vec<Circle> {
    vec![
        ("+c on e and -p on +c", family(&["+c on e", "-p on +c"]), vec!["-p +c 5", "+c -p 6"]),
        ("the closing of a child, no line for it", family(&["-p on -c"]), vec!["-p -c 4", "-c -p 5"]),
        ("the closing of a child, a line for it", family(&["-p on -c", "-c on -p"]), vec!["-p -c 6", "-c -p 5"]),
        ("the closing of a child, a line reads p", family(&["-c if p", "-p on -c"]), vec!["-p -c 5", "-c -p 6"]),
        (
            "other lines of the child give another edge",
            family(&["-c on e", "-c on +p", "-p on -c"]),
            vec!["-p -c 4", "-c -p 7"],
        ),
        (
            "the rise of a mile needs its home, its fall does not",
            with_rules("stage=p\nmile=k p\n", &["-k on -p", "+k on e", "-p on -k", "-p on +k"]),
            vec!["-p +k 6", "+k -p 8"],
        ),
        (
            "a mile is no child",
            with_rules("stage=p\nmile=k p\n", &["-p on -k", "-k on e", "+k on +k"]),
            vec!["+k +k 7"],
        ),
        (
            "through a grandchild",
            with_rules("stage=p\nstage=c p\nstage=d c\n", &["-p on -d"]),
            vec!["-p -c 4", "-c -d 5", "-d -p 6"],
        ),
    ]
}

fn first_lines() -> Vec<Circle> {
    vec![
        ("two lines give one edge", miles(&["+a on e", "+a on +b", "+a if b", "+b if a"]), vec!["+a +b 9", "+b +a 7"]),
        ("two lines, the other way round", miles(&["+b if a", "+a if b", "+a on +b"]), vec!["+a +b 6", "+b +a 7"]),
        ("one line gives the edge twice", miles(&["+a on +b if b or not b", "+b on +a"]), vec!["+a +b 7", "+b +a 6"]),
    ]
}

/// Which circle is told where the nodes left are more than it has.
fn walks() -> Vec<Circle> {
    vec![
        (
            "the first node waits and is not on it",
            miles(&["+a on +b", "+b on +c", "+c on +b"]),
            vec!["+b +c 8", "+c +b 7"],
        ),
        (
            "two wait one behind the other, the last alone is on it",
            miles(&["+a on +b", "+b on +c", "+c if c"]),
            vec!["+c +c 8"],
        ),
        ("a node waits behind the circle", miles(&["+c on +b", "+b on +a", "+a on +b"]), vec!["+a +b 7", "+b +a 8"]),
        (
            "two circles meet, the lowest source leads",
            miles(&["+b on +c", "+b on +a", "+a on +b", "+c on +b"]),
            vec!["+a +b 7", "+b +a 8"],
        ),
        (
            "a free source is passed over",
            miles(&["+a on e", "+b if a", "+b on +c", "+c on -b", "-b on +b"]),
            vec!["+b -b 10", "-b +c 9", "+c +b 8"],
        ),
        (
            "told from the node that came again, not from the lowest on it",
            miles(&["-a on -c", "-c on +b", "-b on -c", "+b on -b"]),
            vec!["-c -b 8", "-b +b 9", "+b -c 7"],
        ),
    ]
}

/// All 64 nodes on one circle: each waits for the one before it, the first for the last.
fn full_ring() -> DeskExample {
    let node = |index: usize| format!("{}s{}", if index.is_multiple_of(2) { '+' } else { '-' }, index / 2);
    let names: String = (0..32).map(|status| format!("mile=s{status}\n")).collect();
    let rules: Vec<String> = (0..64).map(|index| format!("{} on {}", node((index + 1) % 64), node(index))).collect();
    let rules: Vec<&str> = rules.iter().map(String::as_str).collect();
    // The lowest node is the first FROM; the rule for the edge from it is the first, on line 35.
    let lines: String =
        (0..64).map(|index| format!("circle={} {} {}\n", node(index), node((index + 1) % 64), 35 + index)).collect();
    of_sheet("64 edges", &with_rules(&names, &rules), &format!("refused=7 1 0\n{lines}"))
}

/// 31 closings of a child one after another, then the one rule.
fn full_chain() -> DeskExample {
    let inner: String = (1..32).map(|stage| format!("stage=s{stage} s{}\n", stage - 1)).collect();
    let sheet = with_rules(&format!("stage=s0\n{inner}"), &["-s0 on -s31"]);
    let lines: String = (0..31).map(|stage| format!("circle=-s{stage} -s{} {}\n", stage + 1, stage + 4)).collect();
    of_sheet("31 closings", &sheet, &format!("refused=7 1 0\n{lines}circle=-s31 -s0 35\n"))
}

/// What the clerk's program prints with the word `blank`.
pub fn blank_examples() -> Vec<DeskExample> {
    let mut examples = refused_sheets();
    examples.extend([
        of_sheet("P", SHEET_P, &card_of("?", "?", ["no"; 4])),
        of_sheet("a sheet with no status", NOTHING, "case=m\nend=0\n"),
        of_sheet("fields alone", "model=m\nfield=m\nend=0\n", "case=m\nm=?\nend=1\n"),
        of_sheet("stages p and c in p", &family(&[]), "case=m\np=no\nc=no\nend=2\n"),
        of_sheet("P with line 15 rule=+pack if not pack", &not_pack(), "refused=7 1 0\n"),
        of_sheet("the closing of a child", &family(&["-p on -c"]), "refused=7 1 0\n"),
    ]);
    examples
}

/// What the clerk's program prints with the word `card`.
pub fn card_examples() -> Vec<DeskExample> {
    let (sheet, card) = parts_sheet(&[17, 241]);
    let mut examples = refused_papers();
    examples.extend([
        of_papers("looked income=?", papers(SHEET_P, CARD_Q, LOOKED), CARD_Q),
        of_papers(
            "looked income=900",
            papers(SHEET_P, CARD_Q, "looked income=900\n"),
            &card_of("900", "3", ["yes", "yes", "yes", "no"]),
        ),
        of_papers("withdrawn", papers(SHEET_P, CARD_Q, "withdrawn\n"), &card_of("?", "3", ["no"; 4])),
        of_papers("4,097 parts", papers(&sheet, &card, "e\n"), &card),
    ]);
    examples
}

/// Papers are refused so by `card` and by `outlook`.
fn refused_papers() -> Vec<DeskExample> {
    let too_long = DeskExample {
        name: "34,305 bytes of x",
        input: repeated("x", 34_305).into(),
        output: "refused=1 0 0\n".into(),
    };
    vec![
        too_long,
        of_papers("no input", papers("", "", ""), "refused=2 1 1\n"),
        of_papers("P with line 15 rule=+pack if not pack", papers(&not_pack(), CARD_Q, LOOKED), "refused=7 1 0\n"),
        of_papers("P alone", papers(SHEET_P, "", ""), "refused=2 2 1\n"),
        of_papers("an orphan", papers(&family(&[]), "case=m\np=no\nc=yes\nend=2\n", "e\n"), "refused=8 2 3\n"),
        of_papers("looked income=ERR", papers(SHEET_P, CARD_Q, "looked income=ERR\n"), "refused=4 3 1\n"),
    ]
}

/// What the clerk's program prints with the word `outlook`.
pub fn named_examples() -> Vec<DeskExample> {
    let closed = card_of("?", "3", ["no"; 4]);
    let mut examples = refused_papers();
    examples.extend([
        of_papers(
            "looked income=?",
            papers(SHEET_P, CARD_Q, LOOKED),
            "\
review=always
pack=open
fit=open
unfit=open
outlook=review pack fit
outlook=review unfit
",
        ),
        of_papers(
            "looked income=901",
            papers(SHEET_P, CARD_Q, "looked income=901\n"),
            "review=always\npack=never\nfit=never\nunfit=always\noutlook=review unfit\n",
        ),
        of_papers(
            "withdrawn",
            papers(SHEET_P, CARD_Q, "withdrawn\n"),
            "review=never\npack=never\nfit=never\nunfit=never\noutlook=\n",
        ),
        of_papers(
            "all no, asked people=?",
            papers(SHEET_P, &closed, "asked people=?\n"),
            "review=open\npack=never\nfit=never\nunfit=never\noutlook=\noutlook=review\n",
        ),
        of_papers(
            "a sheet with no status",
            papers("model=m\nevent=e\nend=0\n", "case=m\nend=0\n", "e\n"),
            "outlook=\n",
        ),
    ]);
    let (sheet, card) = parts_sheet(&[8, 8, 8, 8]);
    examples.push(of_papers("4,096 parts", papers(&sheet, &card, "e\n"), "m=open\noutlook=\noutlook=m\n"));
    let (sheet, card) = parts_sheet(&[17, 241]);
    examples.push(of_papers("4,097 parts", papers(&sheet, &card, "e\n"), "outlook=refused\n"));
    // A status may be named as the words are.
    let sheet = with_rules("mile=refused\nmile=always\n", &["+refused on e", "-always on e"]);
    let card = "case=m\nrefused=no\nalways=yes\nend=2\n";
    examples.push(of_papers(
        "statuses named refused and always",
        papers(&sheet, card, "e\n"),
        "refused=always\nalways=never\noutlook=refused\n",
    ));
    examples.push(all_at_once());
    examples
}

/// 32 statuses with the longest names, all yes.
fn all_at_once() -> DeskExample {
    let names: Vec<String> = (0..32).map(|status| format!("abcdefghij{}", status + 10)).collect();
    let miles: String = names.iter().map(|name| format!("mile={name}\n")).collect();
    let yes: String = names.iter().map(|name| format!("{name}=yes\n")).collect();
    let always: String = names.iter().map(|name| format!("{name}=always\n")).collect();
    let card = format!("case=m\n{yes}end=32\n");
    let output = format!("{always}outlook={}\n", names.join(" "));
    of_papers("32 statuses yes", papers(&with_rules(&miles, &[]), &card, "e\n"), &output)
}
