//! One call put to port, model and original, and the answers compared.
use crate::calls::{Leaf, Question, WRITTEN};
use crate::faults::Fault;
use crate::model::Row;
use crate::original::{self, Outcome};
use crate::port::{self, Answered, Call, Cell, Due, Function, Lent, Port};
use crate::random::Random;
use crate::tally::Tally;
use crate::{encode, model, reading};
use oracle::{Original, Stopped};
use std::fmt::Debug;
use std::ops::Range;

/// Words before and after each lent buffer, which no call may touch.
pub const GUARD: usize = 8;
/// For a call that is lent no buffer to write, or only one.
const NO_BUFFER: Lent = Lent {
    before: &[],
    expected: &[],
};
const NOTHING: [Lent; WRITTEN] = [NO_BUFFER; WRITTEN];
/// Descriptions whose conversions are at most so many go to the original with no line changed.
const UNCHANGED_CONVERSIONS: u64 = 300;

pub struct Run {
    pub port: Port,
    pub fault: Option<Fault>,
    pub random: Random,
    pub tally: Tally,
    /// The number of random cases, a unit that the sections take multiples of.
    pub cases: u64,
    pub quick: bool,
    /// One call in so many is made over bytes too.
    pub bytes_once_in: u64,
}

/// A table to be asked about.
pub struct Subject {
    pub table: Vec<u32>,
    pub n: u32,
    bytes: Vec<u8>,
    /// By definition: whether its answers are counted apart.
    suspects: Vec<bool>,
    original: Option<Original>,
}

/// What the model makes of a build; the memory has its guards.
struct ModelBuild {
    answer: u64,
    before: Vec<u32>,
    after: Vec<u32>,
}

/// A description built: the answer, and the table for questions.
pub struct Built {
    pub answer: u64,
    pub subject: Subject,
}

impl Run {
    pub fn leaf(&mut self, leaf: &Leaf) {
        let expected = encode::leaf(model::leaf(leaf));
        let outcome = match encode::refusal(expected) {
            0 | 6 => original::leaf(leaf),
            _ => Outcome::Nothing,
        };
        let apart = original::is_stand_in(leaf);
        self.judge(leaf, expected, [&[]; WRITTEN], outcome, apart);
        match leaf {
            Leaf::Record { infos: words, .. } | Leaf::Variant { cases: words, .. } => {
                let bytes = bytes_of(words);
                self.call(port::leaf(leaf, Cell::Word, &bytes), expected, NOTHING);
                if self.random.once_in(self.bytes_once_in) {
                    let bytes = self.bytes_with_tail(words);
                    self.call(port::leaf(leaf, Cell::Byte, &bytes), expected, NOTHING);
                }
            }
            _ => self.call(port::leaf(leaf, Cell::Word, &[]), expected, NOTHING),
        }
    }

    /// Builds with room enough for every row; compares the rows with the original's.
    pub fn description(&mut self, words: &[u32]) -> Built {
        let most = (words.len() / 2 + 1).min(model::MOST_ROWS);
        let room = model::ROW * most + self.random.below(4) as usize;
        let model = self.model_build(words, room);
        let answer = model.answer;
        let n = encode::low(answer);
        // Original and model first: they must agree before the port is judged by either.
        let (original, suspects) = self.original_of(words, n as usize, &model);
        let table = self.port_build(words, model);
        let subject = self.subject(table, n as u32, suspects, original);
        Built { answer, subject }
    }

    /// Builds in a buffer of so many words; port against model alone. Hands the model's answer back.
    pub fn build_in(&mut self, words: &[u32], room: usize) -> u64 {
        let model = self.model_build(words, room);
        let said = model.answer;
        self.port_build(words, model);
        said
    }

    fn model_build(&mut self, words: &[u32], room: usize) -> ModelBuild {
        let before = self.lent(room);
        let mut after = before.clone();
        let lent = &mut after[GUARD..GUARD + room];
        let answer = encode::answer(model::build(words, lent));
        ModelBuild {
            answer,
            before,
            after,
        }
    }

    /// The port's build against the model's, by words and by bytes; hands the table back.
    fn port_build(&mut self, words: &[u32], model: ModelBuild) -> Vec<u32> {
        let room = model.after.len() - 2 * GUARD;
        let description = bytes_of(words);
        let (before, expected) = (&bytes_of(&model.before), &bytes_of(&model.after));
        let table = Lent { before, expected };
        let call = port::build(Cell::Word, &description);
        self.call(call, model.answer, [table, NO_BUFFER]);
        if self.random.once_in(self.bytes_once_in) {
            self.build_bytes(&description, room);
        }
        model.after[GUARD..GUARD + room].to_vec()
    }

    /// Builds from bytes, of any number, in so many whole words and up to three bytes more.
    pub fn build_bytes(&mut self, description: &[u8], room: usize) {
        let before = self.lent(room);
        let before = &self.bytes_with_tail(&before);
        let mut expected = before.clone();
        let lent = 4 * GUARD..before.len() - 4 * GUARD;
        let said = encode::answer(model::build_bytes(description, &mut expected[lent]));
        let expected = &expected;
        let table = Lent { before, expected };
        self.call(
            port::build(Cell::Byte, description),
            said,
            [table, NO_BUFFER],
        );
    }

    pub fn ask(&mut self, subject: &mut Subject, question: &Question) {
        let before = question.rooms().map(|room| self.lent_if(room));
        let mut expected = before.clone();
        let said = model_ask(subject, question, &mut expected);
        self.ask_original(subject, question, said, &expected);
        let lists = question.lists().map(bytes_of);
        let lists = lists.each_ref().map(|list| &list[..]);
        let table = &subject.bytes[..4 * subject.table.len()];
        let call = port::question(question, Cell::Word, table, subject.n, lists);
        let before = before.map(|words| bytes_of(&words));
        let expected = expected.map(|words| bytes_of(&words));
        self.call(call, said, written(&before, &expected));
        if self.random.once_in(self.bytes_once_in) {
            self.ask_bytes(subject, question, said);
        }
    }

    /// The original's answer against the model's, which wrote this; a refusal other than 6 has none.
    fn ask_original(
        &mut self,
        subject: &mut Subject,
        question: &Question,
        said: u64,
        written: &[Vec<u32>; WRITTEN],
    ) {
        let (Some(original), 0 | 6) = (&mut subject.original, encode::refusal(said)) else {
            return;
        };
        let mut held = question.references().filter_map(model::definition_named);
        let is_suspect = held.any(|index| subject.suspects.get(index) == Some(&true));
        let apart = is_suspect || question.is_a_status();
        let mut outcome = original::ask(original, question);
        Fault::original_gaps(self.fault, &mut outcome);
        Fault::original_params(self.fault, question, &mut outcome);
        // The original has no rows read back.
        let without_reads = match question {
            Question::Placement { .. } => encode::PLACEMENT_READS.without(said),
            _ => said,
        };
        let written = written.each_ref().map(|words| &words[part(words.len())]);
        self.judge(question, without_reads, written, outcome, apart);
    }

    /// The byte call must answer as the word call did and write what the model does.
    fn ask_bytes(&mut self, subject: &Subject, question: &Question, said: u64) {
        let words = question.rooms().map(|room| self.lent_if(room));
        let mut after = words.clone();
        // The answer cannot differ from `said`: the same rooms, and a tail adds no whole word.
        let _ = model_ask(subject, question, &mut after);
        let before = words.each_ref().map(|words| match words.is_empty() {
            true => vec![],
            false => self.bytes_with_tail(words),
        });
        let expected = std::array::from_fn(|buffer| {
            // What the model wrote, and the tail as it was.
            let mut bytes = before[buffer].clone();
            let whole = bytes_of(&after[buffer]);
            bytes[..whole.len()].copy_from_slice(&whole);
            bytes
        });
        let lists = question.lists().map(|list| self.bytes_with_tail(list));
        let lists = lists.each_ref().map(|list| &list[..]);
        let call = port::question(question, Cell::Byte, &subject.bytes, subject.n, lists);
        self.call(call, said, written(&before, &expected));
    }

    /// Puts a call to the port, with the answer and the buffers that are due.
    fn call(&mut self, mut call: Call, answer: u64, written: [Lent; WRITTEN]) {
        Fault::before(self.fault, &mut call);
        let (tally, fault) = (&mut self.tally, self.fault);
        let mut judge = |answered: Answered| judge_port(tally, fault, answered);
        self.port.call(call, Due { answer, written }, &mut judge);
    }

    /// Compares whatever still waits for the port.
    pub fn flush(&mut self) {
        let (tally, fault) = (&mut self.tally, self.fault);
        self.port
            .flush(&mut |answered| judge_port(tally, fault, answered));
    }

    /// A table that no build wrote. The original is given its well-formed rows; a reference to
    /// another one is refused before the original is asked.
    pub fn forged(&mut self, table: Vec<u32>, n: u32) -> Subject {
        const FILLER: Row = [1, 0, 1, 0, 1, 0, 0, 0, 0, 0, 0, 0, 0, 0, 0, 2];
        let mut original = Original::new();
        for index in 0..model::capacity(table.len()).min(n as usize) {
            let row = model::row(&table, index);
            original.forge(if model::well_formed(&row) {
                &row
            } else {
                &FILLER
            });
        }
        self.subject(table, n, vec![], Some(original))
    }

    fn subject(
        &mut self,
        table: Vec<u32>,
        n: u32,
        suspects: Vec<bool>,
        original: Option<Original>,
    ) -> Subject {
        let bytes = self.bytes_with_tail(&table);
        Subject {
            table,
            n,
            bytes,
            suspects,
            original,
        }
    }

    /// The original's build of the definitions that the model accepted, their rows compared, and what it
    /// makes of the one that the model refused.
    fn original_of(
        &mut self,
        words: &[u32],
        accepted: usize,
        model: &ModelBuild,
    ) -> (Option<Original>, Vec<bool>) {
        if encode::refusal(model.answer) == 1 {
            return (None, vec![]);
        }
        let definitions = reading::definitions(words, accepted);
        let suspects = reading::suspects(&definitions);
        let few = reading::conversions(&definitions) <= UNCHANGED_CONVERSIONS;
        let mut original = match few {
            true => Original::unchanged(),
            false => Original::new(),
        };
        let built = original.build(words, accepted);
        self.tally.consistent(built == Ok(accepted), || {
            let said = format!("{accepted} definitions at least");
            difference(
                &format!("build {words:?}"),
                "original",
                &built,
                "model",
                &said,
            )
        });
        if built != Ok(accepted) {
            return (None, suspects);
        }
        let table = &model.after[GUARD..model.after.len() - GUARD];
        for (index, suspect) in suspects.iter().enumerate() {
            let row = model::row(table, index);
            let mut said = original.row(index);
            Fault::original_row(self.fault, &mut said);
            // Order 5: what is accepted is at most 100 deep.
            let shallow = said[15] / 2 <= 100;
            let same = said == row && shallow && original.agrees_with_itself(index);
            self.tally.original(same, *suspect, || {
                let what = format!("row {index} of {words:?}");
                difference(&what, "original", &said, "model", &row)
            });
            Fault::OriginalMemories.exchange(self.fault, &mut said);
            self.tally.original_row(&said);
        }
        self.original_of_refused(words, accepted, model.answer, &mut original);
        (Some(original), suspects)
    }

    /// Where the model refused as too large, the original must overflow or saturate; where it refused as too
    /// deep, the original, which knows no such limit, must go on, or overflow as well. In either case the
    /// depth of what the definition refers to, as the oracle's driver finds it, says which of the two it is.
    fn original_of_refused(
        &mut self,
        words: &[u32],
        accepted: usize,
        answer: u64,
        original: &mut Original,
    ) {
        let refusal = encode::refusal(answer);
        if ![6, 9].contains(&refusal) {
            return;
        }
        let refused = &reading::definitions(words, accepted + 1)[accepted];
        let depths = refused.earlier().map(|index| original.row(index)[15] / 2);
        let is_deep = depths.max().unwrap_or(0) >= 100;
        let next = original.build(words, accepted + 1);
        let panicked = next == Err(Stopped::Panicked(accepted));
        let row = (next == Ok(accepted + 1)).then(|| original.row(accepted));
        // Order 14: never on account of the 32-bit memory alone.
        let is_saturated = |row: Row| row[0] == 10 && row[3] == u32::MAX;
        let report = || {
            let what = format!("definition {accepted} of {words:?}");
            let model = format!("refusal {refusal}");
            difference(&what, "original", &(is_deep, next, row), "model", &model)
        };
        let tally = &mut self.tally;
        match (refusal, is_deep) {
            (6, false) => tally.overflow(panicked, row.is_some_and(is_saturated), report),
            (9, true) => tally.too_deep(panicked, row.is_some(), report),
            _ => tally.consistent(false, report),
        }
    }

    /// The original's outcome against the model's answer, which is no refusal or refusal 6.
    fn judge(
        &mut self,
        what: &dyn Debug,
        said: u64,
        written: [&[u32]; WRITTEN],
        outcome: Outcome,
        apart: bool,
    ) {
        let report = |outcome: &Outcome| difference(what, "original", outcome, "model", &said);
        if encode::refusal(said) == 6 {
            let panicked = matches!(outcome, Outcome::Panicked);
            let saturated = matches!(outcome, Outcome::Saturated(_));
            if !matches!(outcome, Outcome::Nothing) {
                self.tally
                    .overflow(panicked, saturated, || report(&outcome));
            }
            return;
        }
        let same = match &outcome {
            Outcome::Is(answer, buffers) => {
                let answer = Fault::original_answer(self.fault, *answer);
                let mut both = written.iter().zip(buffers);
                answer == said && both.all(|(words, numbers)| words.starts_with(numbers))
            }
            Outcome::Saturated(answer) => *answer == said,
            Outcome::Panicked => false,
            Outcome::Nothing => return,
        };
        self.tally.original(same, apart, || report(&outcome));
    }

    /// A buffer of so many words, or none at all.
    fn lent_if(&mut self, room: Option<usize>) -> Vec<u32> {
        room.map_or(vec![], |room| self.lent(room))
    }

    /// A buffer with guards before and after, filled with words that no answer is likely to hold.
    fn lent(&mut self, room: usize) -> Vec<u32> {
        let salt = self.random.word();
        let word = |place: usize| (place as u32).wrapping_mul(0x9E37_79B9) ^ salt;
        (0..room + 2 * GUARD).map(word).collect()
    }

    /// Little-endian bytes, and up to three more, which no call may look at.
    fn bytes_with_tail(&mut self, words: &[u32]) -> Vec<u8> {
        let mut bytes = bytes_of(words);
        for _ in 0..self.random.below(4) {
            bytes.push(self.random.word() as u8);
        }
        bytes
    }
}

pub fn bytes_of(words: &[u32]) -> Vec<u8> {
    words.iter().flat_map(|word| word.to_le_bytes()).collect()
}

/// The model's answer, as the boundary has it; the buffers have their guards.
fn model_ask(subject: &Subject, question: &Question, written: &mut [Vec<u32>; WRITTEN]) -> u64 {
    let parts = written.each_mut().map(|words| {
        let part = part(words.len());
        &mut words[part]
    });
    encode::answer(model::ask(question, &subject.table, subject.n, parts))
}

/// What a call is lent of a buffer of so many words, guards and all; nothing of none.
fn part(words: usize) -> Range<usize> {
    match words {
        0 => 0..0,
        _ => GUARD..words - GUARD,
    }
}

/// The buffers of a call, before it and as they must be after it.
fn written<'a>(
    before: &'a [Vec<u8>; WRITTEN],
    expected: &'a [Vec<u8>; WRITTEN],
) -> [Lent<'a>; WRITTEN] {
    std::array::from_fn(|buffer| Lent {
        before: &before[buffer],
        expected: &expected[buffer],
    })
}

fn difference(
    what: &dyn Debug,
    one: &str,
    one_said: &dyn Debug,
    other: &str,
    other_said: &dyn Debug,
) -> String {
    format!("{what:?}\n    {one}: {one_said:?}\n    {other}: {other_said:?}")
}

fn judge_port(tally: &mut Tally, fault: Option<Fault>, mut answered: Answered) {
    Fault::after(fault, &mut answered);
    let said = answered.expected_answer;
    let same = answered.answer == said && answered.after == answered.expected_after;
    tally.read_back += u64::from(answered.call.function.has_read(said));
    tally
        .coverage
        .asked(&answered.call, said, answered.expected_after);
    tally.answer(same, answered.call.cell == Cell::Byte, || {
        let (call, answer) = (&answered.call, answered.answer);
        let memory = first_difference(&answered);
        format!("{call:?}\n    port: {answer:#x}\n    model: {said:#x}\n    {memory}")
    });
    match answered.call.function {
        Function::Build if same => judge_rows(tally, fault, &answered),
        Function::Placement if same && encode::refusal(said) == 0 => {
            judge_sum(tally, fault, &answered);
        }
        _ => {}
    }
}

/// The rows that a build wrote, in the two memories.
fn judge_rows(tally: &mut Tally, fault: Option<Fault>, answered: &Answered) {
    let lent = &answered.after[0];
    let table = model::words_of(&lent[4 * GUARD..lent.len() - 4 * GUARD]);
    for index in 0..encode::low(answered.answer) as usize {
        let mut row = model::row(&table, index);
        Fault::PortMemories.exchange(fault, &mut row);
        tally.port_row(&row);
    }
}

/// Order 10, of an accepted placement: "Gaps plus member sizes equal the record's size."
fn judge_sum(tally: &mut Tally, fault: Option<Fault>, answered: &Answered) {
    let [table, references, _] = answered.call.slices.map(model::words_of);
    let gaps = &model::words_of(&answered.after[1])[GUARD..][..references.len()];
    let before: u64 = gaps.iter().copied().map(u64::from).sum();
    let mut after = encode::GAP_AFTER.of(answered.answer);
    Fault::PortSum.one_byte_more(fault, &mut after);
    let sizes = model::member_sizes(answered.call.numbers[0], &table, &references);
    let members: u64 = sizes.iter().sum();
    let size = encode::low(answered.answer);
    tally.sum(before + after + members == size, before + after > 0, || {
        let call = &answered.call;
        format!("{call:?}\n    size {size}, members {members}, gaps {gaps:?} and {after}")
    });
}

fn first_difference(answered: &Answered) -> String {
    let buffers = answered.after.iter().zip(answered.expected_after);
    for (buffer, (after, expected)) in buffers.enumerate() {
        let mut both = after.iter().zip(expected);
        if let Some(place) = both.position(|(port, model)| port != model) {
            return format!(
                "written buffer {buffer}, with {} bytes of guard before it, differs first at byte {place}",
                4 * GUARD
            );
        }
    }
    "lent memory is the same".to_string()
}
