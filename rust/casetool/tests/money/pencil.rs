//! A working followed with a pencil: each product, sum and rounding is worked again from the figures that are printed.

/// Steps by their names, each with its lines.
pub struct Sheet<'t> {
    steps: Vec<(&'t str, Vec<&'t str>)>,
}

impl<'t> Sheet<'t> {
    /// The steps of a text, in which each is numbered and its lines stand further in.
    pub fn of(text: &'t str) -> Sheet<'t> {
        let mut steps: Vec<(&str, Vec<&str>)> = Vec::new();
        for line in text.lines() {
            match line.strip_prefix("       ") {
                Some(line) => steps.last_mut().expect("a step").1.push(line),
                None => {
                    let number = format!("  {}. ", steps.len() + 1);
                    let sentence = line.strip_prefix(&number).expect("the next step");
                    let (name, rest) = sentence.split_once(" (23.").expect("its section");
                    assert!(rest.contains("): "), "{line}");
                    steps.push((name, Vec::new()));
                }
            }
        }
        assert!(steps.iter().all(|(_, lines)| !lines.is_empty()), "{text}");
        Sheet { steps }
    }

    fn lines(&self, name: &str) -> &[&'t str] {
        let step = self.steps.iter().find(|(known, _)| *known == name);
        &step.unwrap_or_else(|| panic!("no step {name}")).1
    }

    /// The one line of a step.
    fn line(&self, name: &str) -> &'t str {
        let [line] = self.lines(name) else {
            panic!("{name}: {:?}", self.lines(name))
        };
        line
    }

    fn names(&self) -> Vec<&'t str> {
        self.steps.iter().map(|(name, _)| *name).collect()
    }
}

/// Ten-thousandths of dollars.
fn money(text: &str) -> i128 {
    let (sign, text) = match text.strip_prefix('-') {
        Some(text) => (-1, text),
        None => (1, text),
    };
    let digits = text.strip_prefix('$').expect("dollars").replace(',', "");
    let (whole, part) = digits.split_once('.').expect("decimals");
    sign * format!("{whole}{part:0<4}")
        .parse::<i128>()
        .expect("digits")
}

/// Tenths of MW or MWh.
fn tenths(text: &str) -> i128 {
    let (number, word) = text.split_once(' ').expect("a word");
    assert!(["MW", "MWh"].contains(&word), "{text}");
    let (whole, part) = number.split_once('.').expect("a decimal");
    format!("{}{part}", whole.replace(',', ""))
        .parse()
        .expect("digits")
}

/// Halves of a multiplier.
fn halves(text: &str) -> i128 {
    match text.strip_suffix(".5") {
        Some(whole) => 2 * whole.parse::<i128>().expect("digits") + 1,
        None => 2 * text.parse::<i128>().expect("digits"),
    }
}

/// So many halves of ten-thousandths of dollars, to the nearest cent, a half upwards.
fn to_the_cent(halves: i128) -> i128 {
    (halves + 100).div_euclid(200) * 100
}

/// A row of a column: its label, its two factors where it has them, its amount.
type Row<'t> = (&'t str, Option<(&'t str, &'t str)>, i128);

fn row(line: &str) -> Row<'_> {
    let line = line.split(" (not above").next().expect("a line");
    let line = line.split(" (a negative").next().expect("a line");
    let line = line.split(" (added,").next().expect("a line").trim_start();
    let (left, factors, amount) = match line.split_once(" = ") {
        Some((left, amount)) => {
            let (left, right) = left.split_once(" × ").expect("a product");
            let at = left.find("  ").expect("a label");
            let (label, factor) = left.split_at(at);
            (label, Some((factor.trim(), right.trim())), amount)
        }
        None => {
            let at = line.find("  ").expect("a label");
            let (label, amount) = line.split_at(at);
            (label, None, amount)
        }
    };
    (left, factors, money(amount.trim()))
}

/// What stands in brackets after an amount.
fn note(line: &str) -> Option<&str> {
    let (_, amount) = line.split_once(" = ").expect("a product");
    let (_, note) = amount.trim_start().split_once(' ')?;
    Some(note)
}

/// What has to be said of a product that is not what its factors give, or is 0 for no want of power.
fn expected_note(power: i128, other: &str, amount: i128) -> Option<&'static str> {
    match other.starts_with('(') {
        true if power > 0 && amount == 0 => Some("(not above 0: it counts 0)"),
        false if money(other) < 0 => Some("(a negative price counts 0)"),
        _ => None,
    }
}

/// That the last row of a step is the sum of the others, each of which is what its factors give; the sum.
fn follow_sum(lines: &[&str], product: impl Fn(i128, &str) -> i128) -> i128 {
    if let [line] = lines {
        let (_, sum) = line.split_once(": the sum is ").expect("no hour");
        assert_eq!(money(sum), 0);
        return 0;
    }
    let (last, rows) = lines.split_last().expect("rows");
    let mut sum = 0;
    for line in rows {
        let (label, factors, amount) = row(line);
        assert!(label.starts_with("hour "), "{line}");
        if let Some((power, other)) = factors {
            assert_eq!(amount, product(tenths(power), other), "{line}");
            assert_eq!(note(line), expected_note(tenths(power), other, amount));
        }
        sum += amount;
    }
    assert_eq!(row(last), ("sum", None, sum));
    sum
}

/// N3 or N2, which is how many lines stand over it.
fn follow_count(sheet: &Sheet<'_>, name: &str) -> usize {
    let (last, counted) = sheet.lines(name).split_last().expect("a count");
    let figure = last.strip_prefix(&format!("{name} = ")).expect("the count");
    match figure.strip_suffix(": it is no instance") {
        Some(none) => assert_eq!((none, counted.len()), ("0", 0)),
        None => assert_eq!(figure, counted.len().to_string()),
    }
    counted.len()
}

/// The penalty of a product that is rounded, or 0 and why.
fn follow_penalty(line: &str, multiplier: i128, sum: i128) -> i128 {
    match line.split_once(", to the nearest cent: ") {
        Some((product, penalty)) => {
            let (factor, other) = product.split_once(" × ").expect("a product");
            assert_eq!((halves(factor), money(other)), (multiplier, sum));
            assert_eq!(money(penalty), to_the_cent(multiplier * sum));
            money(penalty)
        }
        None => {
            assert!(line.starts_with("$0.00: ") && multiplier == 0, "{line}");
            0
        }
    }
}

/// Follows the working of a withheld event; its penalty.
pub fn withheld(sheet: &Sheet<'_>) -> i128 {
    let names = ["Instance", "N3", "N2", "Multiplier", "Sum", "Penalty"];
    assert_eq!(sheet.names(), names);
    let (n3, n2) = (follow_count(sheet, "N3"), follow_count(sheet, "N2"));
    let of_n3 = sheet.lines("N3");
    let of_n2 = &sheet.lines("N2")[..n2];
    assert!(of_n2.iter().all(|line| of_n3.contains(line)));
    let multiplier = match (n3, n2) {
        (0, _) => 0,
        (_, 4..) => 6,
        (3.., _) => 4,
        _ => 2,
    };
    let line = sheet.line("Multiplier");
    let figure = line.rsplit(": ").next().expect("a figure");
    let printed = line.strip_suffix(": it is no instance").unwrap_or(figure);
    assert_eq!(halves(printed), multiplier, "{line}");
    assert_eq!(sheet.line("Instance").ends_with(": an instance"), n3 > 0);
    let sum = follow_sum(sheet.lines("Sum"), |power, price| {
        power * money(price).max(0) / 10
    });
    follow_penalty(sheet.line("Penalty"), multiplier, sum)
}

/// Follows the working of a dispatch event; its penalty.
pub fn dispatch(sheet: &Sheet<'_>) -> i128 {
    assert_eq!(sheet.names(), ["Sum", "Multiplier", "Penalty"]);
    let sum = follow_sum(sheet.lines("Sum"), |_, _| panic!("a product"));
    let line = sheet.line("Multiplier");
    let (impact_and_hours, rest) = line.rsplit_once(": ").expect("a figure");
    let multiplier = halves(rest.split(',').next().expect("a figure"));
    let fined = impact_and_hours.starts_with("impact 1")
        && !impact_and_hours.ends_with("flagged hours none");
    assert_eq!(multiplier, if fined { 3 } else { 0 }, "{line}");
    follow_penalty(sheet.line("Penalty"), multiplier, sum)
}

/// Follows E: all that stands over it, added.
fn follow_e(lines: &[&str]) -> i128 {
    let (last, rows) = lines.split_last().expect("rows");
    let mut sum = 0;
    for line in rows {
        if line.starts_with("event ") {
            continue;
        }
        let (_, factors, amount) = row(line);
        if let Some((energy, change)) = factors {
            assert_eq!(amount, tenths(energy) * money(change) / 10, "{line}");
        }
        sum += amount;
    }
    assert_eq!(row(last), ("E", None, sum));
    sum
}

/// Follows T, below which 0 counts.
fn follow_t(lines: &[&str]) -> i128 {
    if lines == ["T = $0.00: Real-Time has no TCC revenue"] {
        return 0;
    }
    let (last, rows) = lines.split_last().expect("rows");
    let sum: i128 = rows.iter().map(|line| row(line).2).sum();
    assert_eq!(row(last), ("T", None, sum.max(0)));
    assert_eq!(last.ends_with(" (added, they are not above 0)"), sum <= 0);
    sum.max(0)
}

/// Follows X: in halves of ten-thousandths of dollars, and as it is printed.
fn follow_x(line: &str, m: i128, e: i128, t: i128) -> (i128, &str) {
    let x = m * e + 2 * t;
    let (formula, printed) = match line.split_once(" is not above 0: X = ") {
        Some(parts) => parts,
        None => line.split_once(" = ").expect("X"),
    };
    assert_eq!(2 * money(printed), x.max(0), "{formula}");
    let (first, last) = formula.split_once(" + ").expect("a sum");
    let (factor, gain) = first.split_once(" × ").expect("a product");
    assert_eq!((halves(factor), money(gain), money(last)), (m, e, t));
    (x, printed)
}

/// Follows the working of a fuel event; its penalty, and whether its own row has it.
pub fn fuel(sheet: &Sheet<'_>) -> (i128, bool) {
    let names = ["Party-day", "E", "T", "M", "X", "Cut", "Penalty"];
    assert_eq!(sheet.names(), names);
    let (e, t) = (follow_e(sheet.lines("E")), follow_t(sheet.lines("T")));
    let line = sheet.line("M");
    let (had, date) = line
        .split_once(" in the six months before ")
        .expect("a date");
    assert!(sheet.lines("Party-day")[0].contains(&format!(" ({date}), ")));
    let m = match had {
        "M = 1.5: it had one" => 3,
        "M = 1: it had none" => 2,
        other => panic!("{other}"),
    };
    let (x, printed) = follow_x(sheet.line("X"), m, e, t);
    let below = x < 2 * 50_000_000;
    let cut = sheet.line("Cut");
    assert!(cut.starts_with(printed));
    assert_eq!(
        cut.ends_with(" is below $5,000: there is no penalty"),
        below
    );
    let lines = sheet.lines("Penalty");
    let (amount, _) = lines[0].split_once(", on the row of ").expect("a row");
    let penalty = match amount.split_once(", to the nearest cent: ") {
        Some((x_again, penalty)) => {
            assert_eq!((x_again, below), (printed, false));
            money(penalty)
        }
        None => {
            assert_eq!((amount, below), ("$0.00, since X is below $5,000", true));
            0
        }
    };
    assert_eq!(penalty, if below { 0 } else { to_the_cent(x) });
    (penalty, lines.len() == 1)
}

/// Follows the working of bids; their make-up.
pub fn bids(sheet: &Sheet<'_>) -> i128 {
    let names = sheet.names();
    assert_eq!(names[..3], ["r", "c", "Mitigated hours"]);
    if names[3..] != ["Sum", "Make-up"] {
        assert!(names[3..] == ["Restored"] || names[3..] == ["Make-up"]);
        let last = sheet.lines(names[3]).last().expect("a line");
        assert!(last.contains("nothing is paid"), "{last}");
        return 0;
    }
    let sum = follow_sum(sheet.lines("Sum"), |power, other| {
        let inner = other.strip_prefix("(the lesser of ").expect("a bid");
        let (bid, rest) = inner.split_once(" and ").expect("c");
        let (correct, price) = rest.split_once(", less ").expect("a price");
        let lesser = money(bid).min(money(correct));
        power * (lesser - money(price.trim_end_matches(')'))).max(0) / 10
    });
    match sheet.line("Make-up").split_once(", to the nearest cent: ") {
        Some((again, make_up)) => {
            assert_eq!((money(again), money(make_up)), (sum, to_the_cent(2 * sum)));
            assert!(sheet.line("c").ends_with(", other than r"));
            money(make_up)
        }
        None => {
            assert_eq!(
                sheet.line("Make-up"),
                "$0.00: c is r, so that nothing is due"
            );
            assert!(sheet.line("c").ends_with(", which is r"));
            0
        }
    }
}
