//! The examples of the request "Tell me why", with their answers written by hand.

use super::{CARD_Q, DeskExample, LOOKED, SHEET_P, card_of, papers, with_line};
use crate::papers::Papers;

/// Three lines for one mile.
const SHEET_A: &str = "\
model=m
field=x
event=e x
mile=k
rule=+k on e if x>5
rule=+k on e if x>3
rule=+k on e
end=3
";

/// A child that is closed by its own line too.
const SHEET_B: &str = "\
model=m
field=x
event=e x
event=f
stage=p
stage=c p
mile=k c
rule=-p on e
rule=-c on e
end=2
";

/// A child that is closed with its parent alone.
const SHEET_C: &str = "\
model=m
field=x
event=e x
event=f
stage=p
stage=c p
mile=k c
rule=-p on e if x>0
rule=-c on f
end=2
";

/// Three papers, the places lent for reasons, and the answer: the reasons, or number, paper and line of the refusal.
pub struct WhyExample {
    pub name: &'static str,
    pub papers: Papers,
    pub room: usize,
    pub answer: Result<Vec<u32>, [u64; 3]>,
}

fn on_sheet_a(k: &str, x: &str) -> Papers {
    papers(SHEET_A, &format!("case=m\nx=1\nk={k}\nend=2\n"), &format!("e x={x}\n"))
}

fn with_family(sheet: &str, k: &str, x: &str) -> Papers {
    papers(sheet, &format!("case=m\nx=1\np=yes\nc=yes\nk={k}\nend=4\n"), &format!("e x={x}\n"))
}

pub fn why_examples() -> Vec<WhyExample> {
    let mut examples = on_sheet_p();
    let mut add = |name, papers, reasons: &[u32]| {
        examples.push(WhyExample { name, papers, room: reasons.len(), answer: Ok(reasons.to_vec()) });
    };
    add("the first line is false, two hold", on_sheet_a("no", "4"), &[61]);
    add("all three lines hold", on_sheet_a("no", "9"), &[51]);
    add("two lines are unknown, the third holds", on_sheet_a("no", "?"), &[71]);
    add("no line for the fall", on_sheet_a("yes", "9"), &[]);
    add("closed by a line and with the parent", with_family(SHEET_B, "no", "1"), &[81, 10_091]);
    add("closed with the parent alone", with_family(SHEET_C, "no", "1"), &[81, 10_052]);
    add("the parent stays, the mile has no line", with_family(SHEET_C, "yes", "0"), &[85, 10_093]);
    examples.push(many_reasons());
    examples
}

/// 30 stages closed with their parent, and 127 lines of a mile: one reason for each, and one for the parent.
fn many_reasons() -> WhyExample {
    let stages: String = (1..=30).map(|child| format!("stage=s{child} p\n")).collect();
    let rules = "rule=+k on f\n".repeat(127);
    let sheet = format!("model=m\nevent=e\nevent=f\nstage=p\n{stages}mile=k\nrule=-p on e\n{rules}end=128\n");
    let open: String = (1..=30).map(|child| format!("s{child}=yes\n")).collect();
    let card = format!("case=m\np=yes\n{open}k=no\nend=32\n");
    let closed = (1..=30).map(|child| child * 10_000 + 42);
    let stopped = (37..=163).map(|line| 310_003 + line * 10);
    let reasons: Vec<u32> = [361].into_iter().chain(closed).chain(stopped).collect();
    WhyExample { name: "158 reasons", papers: papers(&sheet, &card, "e\n"), room: 158, answer: Ok(reasons) }
}

fn on_sheet_p() -> Vec<WhyExample> {
    let looked = || papers(SHEET_P, CARD_Q, "looked income=900\n");
    let closed = card_of("?", "3", ["no", "no", "no", "no"]);
    let fitting = card_of("?", "3", ["yes", "no", "yes", "no"]);
    let taken = |name, papers, reasons: [u32; 4]| WhyExample { name, papers, room: 4, answer: Ok(reasons.to_vec()) };
    let refused = |name, papers, room, answer| WhyExample { name, papers, room, answer: Err(answer) };
    vec![
        taken("looked income=900", looked(), [123, 10_151, 20_131, 30_145]),
        taken("looked income=?", papers(SHEET_P, CARD_Q, LOOKED), [123, 10_155, 20_136, 30_146]),
        taken(
            "home no and condition false: the home is told",
            papers(SHEET_P, &closed, "looked income=901\n"),
            [113, 10_155, 20_134, 30_144],
        ),
        taken(
            "trigger and home against it: the trigger is told",
            papers(SHEET_P, CARD_Q, "withdrawn\n"),
            [121, 10_155, 20_133, 30_143],
        ),
        taken(
            "the home is read after the step",
            papers(&with_line(SHEET_P, 13, "rule=+fit on withdrawn\n"), CARD_Q, "withdrawn\n"),
            [121, 10_155, 20_134, 30_143],
        ),
        WhyExample {
            name: "the trigger +fit where fit is yes already",
            papers: papers(&with_line(SHEET_P, 15, "rule=+pack on +fit\n"), &fitting, "looked income=5\n"),
            room: 3,
            answer: Ok(vec![123, 10_153, 30_145]),
        },
        refused("a place too few", looked(), 3, [9, 0, 0]),
        refused("an event at fault, no place", papers(SHEET_P, CARD_Q, "looked income=ERR\n"), 0, [4, 3, 1]),
        refused("a card at fault, no place", papers(SHEET_P, "", "looked income=ERR\n"), 0, [2, 2, 1]),
        refused("a sheet at fault, no place", papers("", "", ""), 0, [2, 1, 1]),
    ]
}

/// What the clerk's program prints with the word `why`.
pub fn clerk_examples() -> Vec<DeskExample> {
    let example =
        |name, papers: Papers, output: &str| DeskExample { name, input: papers.joined(), output: output.into() };
    vec![
        example(
            "looked income=900",
            papers(SHEET_P, CARD_Q, "looked income=900\n"),
            "\
why=-review line 12 trigger not met: on withdrawn
why=+pack line 15 held: if fit and review
why=+fit line 13 held: on looked if income<=900
why=+unfit line 14 condition false: on looked if income>900
",
        ),
        example(
            "looked income=?",
            papers(SHEET_P, CARD_Q, LOOKED),
            "\
why=-review line 12 trigger not met: on withdrawn
why=+pack line 15 condition false: if fit and review
why=+fit line 13 condition unknown: on looked if income<=900
why=+unfit line 14 condition unknown: on looked if income>900
",
        ),
        example(
            "the home is read after the step",
            papers(&with_line(SHEET_P, 13, "rule=+fit on withdrawn\n"), CARD_Q, "withdrawn\n"),
            "\
why=-review line 12 held: on withdrawn
why=+pack line 15 condition false: if fit and review
why=+fit line 13 home not open: on withdrawn
why=+unfit line 14 trigger not met: on looked if income>900
",
        ),
        example(
            "closed with the parent alone",
            with_family(SHEET_C, "no", "1"),
            "\
why=-p line 8 held: on e if x>0
why=-c parent p closed
",
        ),
        example("no reason", on_sheet_a("yes", "9"), ""),
        example("looked income=ERR", papers(SHEET_P, CARD_Q, "looked income=ERR\n"), "refused=4 3 1\n"),
        DeskExample { name: "34,305 bytes of x", input: vec![b'x'; 34_305], output: "refused=1 0 0\n".into() },
    ]
}
