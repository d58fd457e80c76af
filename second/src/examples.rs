//! The document's examples, with their answers written by hand, and inputs for its odd corners.

mod clerk;
mod why;

pub use clerk::{blank_examples, card_examples, check_examples, named_examples};
pub use why::{WhyExample, clerk_examples, why_examples};

use crate::papers::Papers;

pub const SHEET_P: &str = "\
model=parcel
field=income
field=people
event=looked income
event=asked people
event=withdrawn
stage=review
stage=pack
mile=fit review
mile=unfit review
rule=+review on asked if people>0
rule=-review on withdrawn
rule=+fit on looked if income<=900
rule=+unfit on looked if income>900
rule=+pack if fit and review
end=5
";

pub const CARD_Q: &str = "\
case=parcel
income=?
people=3
review=yes
pack=no
fit=no
unfit=no
end=6
";

const LOOKED: &str = "looked income=?\n";

/// An input of the desk program, or of the clerk's, and what it prints.
pub struct DeskExample {
    pub name: &'static str,
    pub input: Vec<u8>,
    pub output: String,
}

/// Three papers and the step's answer: number, paper and line, all 0 if they are taken.
pub struct CornerExample {
    pub name: String,
    pub papers: Papers,
    pub answer: [u64; 3],
}

fn papers(sheet: &str, card: &str, event: &str) -> Papers {
    Papers { sheet: sheet.into(), card: card.into(), event: event.into() }
}

/// A paper with one line replaced; the text may hold several lines, or none at all.
fn with_line(paper: &str, number: usize, text: &str) -> String {
    let lines = paper.split_inclusive('\n').enumerate();
    lines.map(|(index, line)| if index + 1 == number { text } else { line }).collect()
}

/// The lines above one, then a text, and nothing behind it.
fn ended(paper: &str, number: usize, text: &str) -> String {
    paper.split_inclusive('\n').take(number - 1).chain([text]).collect()
}

fn card_of(income: &str, people: &str, statuses: [&str; 4]) -> String {
    let [review, pack, fit, unfit] = statuses;
    format!(
        "case=parcel\nincome={income}\npeople={people}\nreview={review}\npack={pack}\nfit={fit}\nunfit={unfit}\nend=6\n"
    )
}

fn repeated(text: &str, times: usize) -> String {
    text.repeat(times)
}

/// The desk examples of the document.
pub fn desk_examples() -> Vec<DeskExample> {
    let closed = card_of("?", "3", ["no", "no", "no", "no"]);
    let example = |name, papers: Papers, output: String| DeskExample { name, input: papers.joined(), output };
    let refused = |answer: &str| format!("refused={answer}\n");
    let mut examples = vec![
        example("printed in the document", papers(SHEET_P, CARD_Q, LOOKED), format!("{CARD_Q}outlook=7\noutlook=9\n")),
        example(
            "looked income=900",
            papers(SHEET_P, CARD_Q, "looked income=900\n"),
            format!("{}start=pack\noutlook=7\n", card_of("900", "3", ["yes", "yes", "yes", "no"])),
        ),
        example(
            "looked income=901",
            papers(SHEET_P, CARD_Q, "looked income=901\n"),
            format!("{}outlook=9\n", card_of("901", "3", ["yes", "no", "no", "yes"])),
        ),
        example("looked income=ERR", papers(SHEET_P, CARD_Q, "looked income=ERR\n"), refused("4 3 1")),
        example("looked", papers(SHEET_P, CARD_Q, "looked\n"), refused("2 3 1")),
        example(
            "withdrawn",
            papers(SHEET_P, CARD_Q, "withdrawn\n"),
            format!("{}outlook=0\n", card_of("?", "3", ["no", "no", "no", "no"])),
        ),
        example(
            "all no, asked people=0",
            papers(SHEET_P, &closed, "asked people=0\n"),
            format!("{}outlook=0\n", card_of("?", "0", ["no", "no", "no", "no"])),
        ),
        example(
            "all no, asked people=?",
            papers(SHEET_P, &closed, "asked people=?\n"),
            format!("{}outlook=0\noutlook=1\n", card_of("?", "?", ["no", "no", "no", "no"])),
        ),
        example(
            "rule=+pack if not pack",
            papers(&with_line(SHEET_P, 15, "rule=+pack if not pack\n"), CARD_Q, LOOKED),
            refused("7 1 0"),
        ),
    ];
    let family = |rules: &str| format!("model=m\nevent=e\nstage=p\nstage=c p\n{rules}");
    let open = "case=m\np=yes\nc=no\nend=2\n";
    examples.push(example(
        "+c on e and -p on +c",
        papers(&family("rule=+c on e\nrule=-p on +c\nend=2\n"), open, "e\n"),
        refused("7 1 0"),
    ));
    examples.push(example(
        "-p on +c alone",
        papers(&family("rule=-p on +c\nend=1\n"), open, "e\n"),
        format!("{open}outlook=1\n"),
    ));
    let either = with_line(SHEET_P, 15, "rule=+pack if income<=0 or income>0\n");
    examples.push(example(
        "income<=0 or income>0 with ?",
        papers(&either, CARD_Q, LOOKED),
        // Every filling opens pack; fit needs at most 900.
        format!("{CARD_Q}outlook=7\noutlook=11\n"),
    ));
    examples.push(example(
        "1000000000",
        papers(SHEET_P, CARD_Q, "looked income=1000000000\n"),
        format!("{}outlook=9\n", card_of("1000000000", "3", ["yes", "no", "no", "yes"])),
    ));
    examples.push(example(
        "-1000000000",
        papers(SHEET_P, CARD_Q, "looked income=-1000000000\n"),
        format!("{}start=pack\noutlook=7\n", card_of("-1000000000", "3", ["yes", "yes", "yes", "no"])),
    ));
    for number in ["1000000001", "-1000000001"] {
        let event = format!("looked income={number}\n");
        examples.push(example("one outside the range", papers(SHEET_P, CARD_Q, &event), refused("4 3 1")));
    }
    examples.push(example("empty sheet", papers("", "", ""), refused("2 1 1")));
    let (sheet, card) = parts_sheet(&[8, 8, 8, 8]);
    let listed: String = [0, 1].map(|pattern| format!("outlook={pattern}\n")).concat();
    examples.push(example("4,096 parts", papers(&sheet, &card, "e\n"), format!("{card}{listed}")));
    let (sheet, card) = parts_sheet(&[17, 241]);
    examples.push(example("4,097 parts", papers(&sheet, &card, "e\n"), format!("{card}outlook=refused\n")));
    examples.extend(splitting_examples());
    examples
}

/// How the desk program parts its input, and its own limit.
fn splitting_examples() -> Vec<DeskExample> {
    let example =
        |name, input: Vec<u8>, answer: &str| DeskExample { name, input, output: format!("refused={answer}\n") };
    let whole = papers(SHEET_P, CARD_Q, LOOKED).joined();
    let mut padded = whole.clone();
    padded.resize(34_305, b'x');
    let cut = |paper: &str| paper.strip_suffix('\n').unwrap_or(paper).as_bytes().to_vec();
    vec![
        example("34,305 bytes of x", vec![b'x'; 34_305], "1 0 0"),
        example("34,304 bytes of x", vec![b'x'; 34_304], "1 1 0"),
        example("34,305 bytes, good papers first", padded.clone(), "1 0 0"),
        example("34,304 bytes, good papers first", padded[..34_304].to_vec(), "1 3 0"),
        example("no input", vec![], "2 1 1"),
        example("P without its last LF", cut(SHEET_P), "2 1 16"),
        example("P alone", SHEET_P.into(), "2 2 1"),
        example("P and Q without its last LF", [SHEET_P.as_bytes(), &cut(CARD_Q)].concat(), "2 2 8"),
        example("P and Q alone", [SHEET_P, CARD_Q].concat().into(), "2 3 1"),
        example("an LF between P and Q", [SHEET_P, "\n", CARD_Q, LOOKED].concat().into(), "2 2 1"),
        example("no end line at all", b"model=parcel\nfield=x\n".to_vec(), "2 1 3"),
        example("end=0 at once", [b"end=0\n", &whole[..]].concat(), "2 1 1"),
    ]
}

/// A sheet with one `?` field for each number of parts, and its card; a mile that only the highest part opens.
fn parts_sheet(parts: &[usize]) -> (String, String) {
    let fields: Vec<String> = (1..=parts.len()).map(|index| format!("f{index}")).collect();
    let mut sheet = String::from("model=m\n");
    for field in &fields {
        sheet += &format!("field={field}\n");
    }
    sheet += "event=e\nmile=m\nrule=+m if ";
    let leaves =
        fields.iter().zip(parts).flat_map(|(field, &count)| (1..count).map(move |cut| format!("{field}>={cut}")));
    sheet += &leaves.collect::<Vec<_>>().join(" and ");
    sheet += "\nend=1\n";
    let mut card = String::from("case=m\n");
    for field in &fields {
        card += &format!("{field}=?\n");
    }
    card += &format!("m=no\nend={}\n", fields.len() + 1);
    (sheet, card)
}

/// Inputs for the odd corners, most of them sheet P with another line 15.
pub fn corner_examples() -> Vec<CornerExample> {
    let mut examples = vec![];
    conditions(&mut examples);
    other_sheets(&mut examples);
    limits(&mut examples);
    cards_and_events(&mut examples);
    ranges(&mut examples);
    examples
}

fn add(examples: &mut Vec<CornerExample>, name: &str, papers: Papers, answer: [u64; 3]) {
    examples.push(CornerExample { name: name.escape_debug().to_string(), papers, answer });
}

fn conditions(examples: &mut Vec<CornerExample>) {
    let behind_pack = [
        ("if fit review", 5),
        ("if fit xor review", 5),
        ("if fit ", 5),
        ("if fit)", 5),
        ("if fit\r", 5),
        ("if income<5x", 5),
        ("if fit<5", 5),
        ("if fit on looked", 5),
        ("on *fit", 3),
        ("on ", 3),
        ("on  looked", 3),
        ("on looked x", 2),
        ("on looked ", 2),
        ("on looked if", 2),
        ("on looked on looked", 2),
        ("on +", 3),
        ("on +looked", 3),
        ("on fit", 3),
        ("on income", 3),
        ("on -fit", 0),
        ("on -fit if fit", 0),
        ("on", 2),
        ("if", 2),
        ("if ", 3),
        ("", 2),
        ("if income==5", 4),
        ("if income=<5", 4),
        ("if income<>5", 4),
        ("if income=?", 4),
        ("if income!=5", 5),
        ("if income <5", 5),
        ("if income< 5", 4),
        ("if not(fit)", 3),
        ("if not", 3),
        ("if not  fit", 3),
        ("if ()", 3),
        ("if ( fit)", 3),
        ("if (fit )", 5),
        ("if fit and  review", 3),
        ("if fit  and review", 5),
        ("if fit and or review", 3),
        ("if fit and ", 3),
        ("if income", 5),
        ("if income<", 4),
        ("if (fit", 5),
        ("if (fit))", 5),
        ("if (fit or review) and not (fit and review)", 0),
        ("if looked", 3),
        ("if nothing", 3),
        ("if income<-0", 4),
        ("if income<007", 4),
        ("if income<+1", 4),
        ("if income<-1", 0),
        ("if income<0", 0),
        ("if income<1000000000000000000000000000000", 4),
        ("if income<18446744073709551617", 4),
        ("if income<1000000000", 0),
        ("if income<1000000001", 4),
        ("if income<-1000000000", 0),
        ("if income<-1000000001", 4),
        ("if not not not not not not not not fit", 0),
        ("if not not not not not not not not not fit", 5),
        ("if ((((((((fit))))))))", 0),
        ("if (((((((((fit)))))))))", 5),
        ("if not (not (not (not (fit))))", 0),
        ("if not (not (not (not (not fit))))", 5),
        ("if not not not not not not not not (fit)", 5),
        ("if not not not not not not not not not nosuch", 5),
        ("if (fit) and ((fit)) and (((((((fit)))))) or fit) and not not not not not not not not fit", 0),
    ];
    for (text, number) in behind_pack {
        let sheet = with_line(SHEET_P, 15, &format!("rule=+pack {text}\n"));
        let sheet = if text.is_empty() { with_line(SHEET_P, 15, "rule=+pack\n") } else { sheet };
        let answer = if number == 0 { [0, 0, 0] } else { [number, 1, 15] };
        add(examples, text, papers(&sheet, CARD_Q, LOOKED), answer);
    }
    let ends_there = [
        ("if fit", 2),
        ("if fit ", 5),
        ("if fit an", 5),
        ("if fit and", 5),
        ("if fit and ", 2),
        ("if fit or", 5),
        ("if fit or ", 2),
        ("if not not not not not not not not not ", 5),
        ("if (((((((((", 5),
        ("if ((((((((", 2),
        ("if not not not not not not not not not", 3),
        ("if not not not not not not not not ", 2),
        ("if ", 2),
        ("if", 2),
        ("on ", 2),
        ("on +", 2),
        ("on looked", 2),
        ("if fi", 3),
        ("if income<-", 4),
        ("if not", 3),
        ("if income", 2),
        ("if income<", 2),
        ("if income<1", 2),
        ("if (fit", 2),
        ("if (fit)", 2),
        ("if not ", 2),
    ];
    for (text, number) in ends_there {
        let sheet = ended(SHEET_P, 15, &format!("rule=+pack {text}"));
        add(examples, &format!("{text} and no more"), papers(&sheet, CARD_Q, LOOKED), [number, 1, 15]);
    }
}

fn other_sheets(examples: &mut Vec<CornerExample>) {
    let replaced = [
        (1, "model=\n", 3, 1),
        (1, "model=Parcel\n", 3, 1),
        (1, "model=on\n", 3, 1),
        (1, "model=parcel \n", 2, 1),
        (1, "", 2, 1),
        (2, "model=parcel\n", 2, 2),
        (2, "field=abcdefghijklm\n", 3, 2),
        (2, "field=incomE\n", 2, 2),
        (2, "field=income2\n", 3, 4),
        (2, "field=2income\n", 3, 2),
        (2, "field=\n", 3, 2),
        (2, "field=not\n", 3, 2),
        (3, "field=income\n", 3, 3),
        (4, "event=looked \n", 3, 4),
        (4, "event=looked  income\n", 3, 4),
        (4, "event=looked income income\n", 3, 4),
        (4, "event=looked review\n", 3, 4),
        (4, "event=income\n", 3, 4),
        (5, "\nevent=asked people\n", 2, 5),
        (7, "stage=review \n", 3, 7),
        (7, "stage=review review\n", 3, 7),
        (7, "stage=review pack\n", 3, 7),
        (8, "stage=pack review review\n", 2, 8),
        (8, "stage=pack income\n", 3, 8),
        (10, "mile=unfit fit\n", 3, 10),
        (10, "stage=unfit review\n", 2, 10),
        (15, "rule=+ pack if fit\n", 3, 15),
        (15, "rule=+\n", 3, 15),
        (15, "rule=pack if fit\n", 2, 15),
        (15, "rule=*pack if fit\n", 2, 15),
        (15, "rule=+income if fit\n", 3, 15),
        (16, "end=05\n", 4, 16),
        (16, "end=\n", 4, 16),
        (16, "end=x\n", 4, 16),
        (16, "end=1000000001\n", 4, 16),
        (16, "end=-5\n", 2, 16),
        (16, "end=1000000000\n", 2, 16),
        (16, "end=4\n", 2, 16),
        (16, "end=5 \n", 2, 16),
        (16, "", 2, 16),
        (16, "end=5\n\n", 2, 17),
        (16, "end=5\nx", 2, 17),
        (16, "end=5", 2, 16),
        (16, "end=", 2, 16),
        (16, "end", 2, 16),
    ];
    for (number, text, fault, line) in replaced {
        let name = format!("line {number}: {text}");
        add(examples, &name, papers(&with_line(SHEET_P, number, text), CARD_Q, LOOKED), [fault, 1, line]);
    }
    // The model may share a field's name; then the card's first line shows it too.
    let shared = papers(&with_line(SHEET_P, 1, "model=income\n"), &with_line(CARD_Q, 1, "case=income\n"), LOOKED);
    add(examples, "the model named as a field", shared, [0, 0, 0]);
    let cyclic = with_line(SHEET_P, 15, "rule=+pack if not pack\n");
    add(examples, "a cycle and a long card", papers(&cyclic, &repeated("x", 1_025), LOOKED), [7, 1, 0]);
    add(examples, "a long sheet", papers(&repeated("x", 32_769), "", ""), [1, 1, 0]);
    add(examples, "a sheet of full length", papers(&repeated("x", 32_768), "", ""), [2, 1, 1]);
}

/// A sheet whose line 6 holds 512 leaves, up to them.
fn leaves_512() -> String {
    let list = vec!["l"; 512].join(" and ");
    format!("model=m\nfield=f\nevent=e\nstage=l\nmile=o\nrule=+o if {list}")
}

fn limits(examples: &mut Vec<CornerExample>) {
    let card = "case=m\nf=?\nl=no\no=no\nend=3\n";
    let leaves = leaves_512();
    let taken = papers(&format!("{leaves}\nend=1\n"), card, "e\n");
    add(examples, "512 leaves", taken, [0, 0, 0]);
    let behind = [
        (" and l", 6),
        (" and f", 6),
        (" and ", 2),
        (" and nosuch", 3),
        (" and e", 3),
        (" and f!", 6),
        (" and f<99999999999", 6),
        (" and not not not not not not not not not l", 5),
        (" and l\nend=1\n", 6),
        (" and f<5\nend=1\n", 6),
        (" or not l\nend=1\n", 6),
    ];
    for (text, number) in behind {
        let sheet = format!("{leaves}{text}");
        add(examples, &format!("512 leaves,{text}"), papers(&sheet, card, "e\n"), [number, 1, 6]);
    }
    add(
        examples,
        "the 513th leaf in another rule",
        papers(&format!("{leaves}\nrule=-o on e if f<1\nend=2\n"), card, "e\n"),
        [6, 1, 7],
    );
    let fields: String = (1..=16).map(|index| format!("field=f{index}\n")).collect();
    let sheet = |more: &str| format!("model=m\n{fields}{more}");
    let behind = [
        ("field=A\n", 6, 18),
        ("field=f1\n", 6, 18),
        ("field=", 6, 18),
        ("field", 2, 18),
        ("event=e\nfield=x\n", 2, 19),
    ];
    for (text, number, line) in behind {
        add(examples, &format!("16 fields, {text}"), papers(&sheet(text), "", ""), [number, 1, line]);
    }
    let events: String = (1..=17).map(|index| format!("event=e{index}\n")).collect();
    add(examples, "17 events", papers(&format!("model=m\n{events}end=0\n"), "", ""), [6, 1, 18]);
    let stages: String = (1..=31).map(|index| format!("stage=s{index}\n")).collect();
    let miles = "mile=m1\nmile=m2\n";
    add(examples, "33 statuses", papers(&format!("model=m\n{stages}{miles}end=0\n"), "", ""), [6, 1, 34]);
    add(examples, "33 stages", papers(&format!("model=m\n{stages}stage=a\nstage=b\nend=0\n"), "", ""), [6, 1, 34]);
    let rules = repeated("rule=+s on e\n", 129);
    add(examples, "129 rules", papers(&format!("model=m\nevent=e\nstage=s\n{rules}end=129\n"), "", ""), [6, 1, 132]);
    let rules = repeated("rule=+s on e\n", 128);
    add(
        examples,
        "128 rules",
        papers(&format!("model=m\nevent=e\nstage=s\n{rules}end=128\n"), "case=m\ns=no\nend=1\n", "e\n"),
        [0, 0, 0],
    );
}

fn cards_and_events(examples: &mut Vec<CornerExample>) {
    let cards = [
        (1, "case=parcel2\n", 3, 1),
        (1, "case=parcel \n", 2, 1),
        (1, "model=parcel\n", 2, 1),
        (2, "incom=1\n", 3, 2),
        (2, "incomes=1\n", 3, 2),
        (2, "\nincome=1\n", 3, 2),
        (2, "income\n", 2, 2),
        (2, "income=\n", 4, 2),
        (2, "income=? \n", 2, 2),
        (2, "income=01\n", 4, 2),
        (4, "review=?\n", 2, 4),
        (4, "review=\n", 2, 4),
        (4, "review=yes \n", 2, 4),
        (4, "review=YES\n", 2, 4),
        (7, "", 3, 7),
        (8, "end=?\n", 4, 8),
        (8, "end=5\n", 2, 8),
        (8, "end=06\n", 4, 8),
        (8, "end=6\n\n", 2, 9),
        (8, "", 2, 8),
        (8, "end=6", 2, 8),
    ];
    for (number, text, fault, line) in cards {
        let name = format!("card line {number}: {text}");
        add(examples, &name, papers(SHEET_P, &with_line(CARD_Q, number, text), LOOKED), [fault, 2, line]);
    }
    let ends =
        [("inco", 2, 3), ("income=-", 2, 4), ("income=", 2, 2), ("income", 2, 2), ("review=y", 4, 2), ("", 1, 2)];
    for (text, line, fault) in ends {
        let card = ended(CARD_Q, line, text);
        add(examples, &format!("card ends in {text}"), papers(SHEET_P, &card, LOOKED), [fault, 2, line as u64]);
    }
    let home_closed = card_of("?", "3", ["no", "no", "yes", "no"]);
    add(examples, "a mile yes, its home no", papers(SHEET_P, &home_closed, LOOKED), [0, 0, 0]);
    add(examples, "a long card", papers(SHEET_P, &repeated("x", 1_025), LOOKED), [1, 2, 0]);
    add(examples, "a card of full length", papers(SHEET_P, &repeated("x", 1_024), LOOKED), [2, 2, 1]);

    let family = "model=m\nevent=e\nstage=p\nstage=c p\nend=0\n";
    let orphan = "case=m\np=no\nc=yes\nend=2\n";
    add(examples, "an orphan and a long event", papers(family, orphan, &repeated("x", 513)), [8, 2, 3]);
    add(examples, "an orphan and bytes behind", papers(family, &format!("{orphan}x"), "e\n"), [2, 2, 5]);

    let events = [
        ("looked people=9\n", 3, 1),
        ("\n", 3, 1),
        (" looked income=9\n", 3, 1),
        ("looke", 3, 1),
        ("looked", 2, 1),
        ("looked ", 2, 1),
        ("looked income", 2, 1),
        ("looked income=", 2, 1),
        ("looked income=9", 2, 1),
        ("looked income=4294967299\n", 4, 1),
        ("looked income=9x\n", 2, 1),
        ("looked income=?9\n", 2, 1),
        ("looked income=-?\n", 4, 1),
        ("looked income=9 people=3\n", 2, 1),
        ("looked  income=9\n", 3, 1),
        ("lookedX income=9\n", 2, 1),
        ("lookedx income=9\n", 3, 1),
        ("review\n", 3, 1),
        ("withdrawn income=9\n", 2, 1),
        ("withdrawn\r\n", 2, 1),
        ("withdrawn\n\n", 2, 2),
        ("withdrawn", 2, 1),
        ("", 2, 1),
    ];
    for (text, fault, line) in events {
        add(examples, &format!("event {text}"), papers(SHEET_P, CARD_Q, text), [fault, 3, line]);
    }
    add(examples, "a long event", papers(SHEET_P, CARD_Q, &repeated("x", 513)), [1, 3, 0]);
    add(examples, "an event of full length", papers(SHEET_P, CARD_Q, &repeated("x", 512)), [3, 3, 1]);
}

/// Comparisons at the ends of the range; what they cut shows in the outlook.
fn ranges(examples: &mut Vec<CornerExample>) {
    let conditions = [
        "income<-1000000000",
        "income>1000000000",
        "income>=-1000000000",
        "income<=1000000000",
        "income=-1000000000",
        "income=1000000000",
    ];
    for condition in conditions {
        let sheet = with_line(SHEET_P, 15, &format!("rule=+pack if {condition}\n"));
        add(examples, condition, papers(&sheet, CARD_Q, LOOKED), [0, 0, 0]);
    }
}
