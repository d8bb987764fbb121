//! The working of an event's money: what its penalty and its make-up payment are made of, and what N3 and N2
//! counted. Every answer is held to the second implementation's, field by field and byte by byte; what it says is
//! held to the rows and to the smaller calls, and to a case of each kind by hand. All of it is done in both versions, and
//! every event of a version 2 copy is worked by both implementations too, to the same workings.

mod beside;
mod by_hand;
mod edges;
mod figures;
mod refused;

use attachment_h::{
    Cents, Counted, INSTANCES_LENGTH, Instances, Kind, MakeUpWorking, Mask, Multiplier,
    PenaltyWorking, Refused, instances, instances_into, make_up_working, penalty_working,
};
use cases::{Case, Generated, Input, Random, Version};
use second::SettledCase;

/// What is said of an event's money, the buffer of its bits after that, and in how many versions it was worked.
#[derive(Debug, PartialEq)]
struct Worked {
    penalty: PenaltyWorking,
    instances: Instances,
    make_up: MakeUpWorking,
    out: Vec<u8>,
    versions: usize,
}

/// An input in one version, and the case as the second implementation settles it, once for all events.
struct InOneVersion {
    input: Input,
    second: Result<SettledCase, u8>,
}

/// An input and, where it has one, the same case in the other version, which has the same workings.
struct Inputs {
    input: InOneVersion,
    other: Option<InOneVersion>,
}

impl Inputs {
    /// An input, of version 1 with its version 2 copy.
    fn of(input: Input) -> Inputs {
        let copy = input.version_2_copy();
        Inputs {
            input: InOneVersion::of(input),
            other: copy.map(InOneVersion::of),
        }
    }

    /// A generated case, of version 2 with the one of version 1 whose units are numbered through.
    fn of_case(generated: &Generated) -> Inputs {
        if generated.case.version == Version::One {
            return Inputs::of(generated.input());
        }
        let through = generated.numbered_through().input();
        Inputs {
            input: InOneVersion::of(generated.input()),
            other: Some(InOneVersion::of(through)),
        }
    }
}

/// The working of an event, in which both implementations agree, of the input and of the same in the other version.
fn both(random: &mut Random, inputs: &Inputs, event: usize, what: &str) -> Result<Worked, Refused> {
    let before = noise(random);
    let what = format!("{what}, event {event}, {} bytes", before.len());
    let worked = inputs.input.work(&before, event, &what);
    let Some(other) = &inputs.other else {
        return worked;
    };
    let what = format!("{what}, in the other version");
    assert_eq!(other.work(&before, event, &what), worked, "{what}");
    worked.map(|worked| Worked {
        versions: 2,
        ..worked
    })
}

/// A buffer with something in it, often of just the length that the bits need.
fn noise(random: &mut Random) -> Vec<u8> {
    let more = random.below(200);
    let length = random.pick(&[0, 57, 113, 113, 114, 114, 114, 115, 114 + more]);
    (0..length).map(|_| random.bits() as u8).collect()
}

impl InOneVersion {
    fn of(input: Input) -> InOneVersion {
        let second = SettledCase::of(&input.file, &input.correction);
        InOneVersion { input, second }
    }

    /// An answer of the second implementation.
    fn expected<T>(
        &self,
        answer: impl FnOnce(&SettledCase) -> Result<T, u8>,
    ) -> Result<T, Refused> {
        let settled = self.second.as_ref().map_err(|&number| number);
        settled.and_then(answer).map_err(Refused)
    }

    /// The working of an event by the library, which is the second implementation's.
    fn work(&self, before: &[u8], event: usize, what: &str) -> Result<Worked, Refused> {
        let (file, correction) = (&self.input.file, &self.input.correction);
        let penalty = penalty_working(file, correction, event);
        let instances = instances(file, correction, event);
        let make_up = make_up_working(file, correction, event);
        let expected = self.expected(|case| case.penalty_working(event));
        assert_eq!(penalty, expected.map(of_penalty), "{what}");
        let expected = self.expected(|case| case.instances(event));
        assert_eq!(instances, expected.map(of_instances), "{what}");
        let expected = self.expected(|case| case.make_up_working(event));
        assert_eq!(make_up, expected.map(of_make_up), "{what}");
        let out = self.bits(before, event, what);
        Ok(Worked {
            penalty: penalty?,
            instances: instances?,
            make_up: make_up?,
            out,
            versions: 1,
        })
    }

    /// The bits of an event in a buffer that held this, every byte beside the second implementation's.
    fn bits(&self, before: &[u8], event: usize, what: &str) -> Vec<u8> {
        let (mut out, mut expected_out) = (before.to_vec(), before.to_vec());
        let answer = instances_into(&self.input.file, &self.input.correction, event, &mut out);
        let expected = self.expected(|case| case.instances_into(event, &mut expected_out));
        assert_eq!(answer, expected, "{what}");
        assert_eq!(out, expected_out, "{what}");
        let written = answer.map_or(0, |()| INSTANCES_LENGTH);
        assert_eq!(out[written..], before[written..], "{what}");
        out
    }
}

/// The bits of an event of a case without a correction, the same in its version 2 copy.
fn bits_of(case: &Case, event: usize) -> [u8; INSTANCES_LENGTH] {
    let input = Input::new(case, &[]);
    let copy = input.version_2_copy().expect("a copy");
    let [bits, of_the_copy] = [input, copy].map(|input| {
        let mut out = [0xA5; INSTANCES_LENGTH];
        let answer = instances_into(&input.file, &input.correction, event, &mut out);
        assert_eq!(answer, Ok(()));
        out
    });
    assert_eq!(of_the_copy, bits);
    bits
}

/// The second implementation's working in the form of the proved one.
fn of_penalty(worked: second::PenaltyWorking) -> PenaltyWorking {
    PenaltyWorking {
        kind: Kind(worked.kind),
        multiplier: Multiplier(worked.multiplier),
        below: worked.below,
        n3: worked.n3,
        n2: worked.n2,
        row: worked.row,
        amount: worked.amount,
        revenue: worked.revenue,
        e_positive: worked.e.max(0).unsigned_abs(),
        e_negative: worked.e.min(0).unsigned_abs(),
        t: worked.t,
        x: worked.x,
        penalty: Cents(worked.penalty),
        hours: worked.hours,
        losses: worked.losses,
    }
}

fn of_instances(counted: second::Instances) -> Instances {
    let of = |counted: second::Counted| Counted {
        events: counted.events,
        past: counted.past,
    };
    Instances {
        three: of(counted.three),
        two: of(counted.two),
    }
}

fn of_make_up(worked: second::MakeUpWorking) -> MakeUpWorking {
    MakeUpWorking {
        reference: worked.reference,
        correct: worked.correct,
        mitigated: Mask(worked.mitigated),
        restored: Mask(worked.restored),
        tenths: worked.tenths,
        make_up: Cents(worked.make_up),
        hours: worked.hours,
    }
}
