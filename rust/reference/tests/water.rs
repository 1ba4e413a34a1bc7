//! Request A3: discharge water, by day.

use inputs::wire::{
    self, AnyLine, Batch, Day, Head, Line, Record, Survey, WaterDay, WaterHead, WaterLine, Written, bytes,
};

const HOURS: usize = reference::HOURS;
/// A head record of an outfall, and every other record of it but its end.
const HEAD: usize = 8;
const RECORD: usize = 14;
const END: usize = 4;

const STACK: Head = Head { stack: 1, pollutant: 2, required: 1, furnace: 1, coal: 4, megawatts: 300, mark: 1, days: 1 };
const BATCH: Batch = Batch { kg: 1_000_000, sulphur: 80, ash: 2_000 };

/// What a call answers and writes, with room for all rows.
struct Called {
    answer: reference::Answer,
    rows: [u64; 7 * 48],
    concentration: [u32; HOURS],
    flow: [u32; HOURS],
}

impl Called {
    fn with(file: &[u8]) -> Self {
        let (mut rows, mut concentration, mut flow) = ([7; 7 * 48], [7; HOURS], [7; HOURS]);
        let answer = reference::account(file, &mut rows, &mut concentration, &mut flow);
        Called { answer, rows, concentration, flow }
    }

    /// The rows of an accepted file.
    fn rows(&self) -> Vec<[u64; 7]> {
        assert_eq!((self.answer.number, self.answer.place), (0, 0));
        let count = self.answer.rows as usize;
        assert!(self.rows[7 * count..].iter().all(|&cell| cell == 7));
        self.rows.as_chunks().0[..count].to_vec()
    }

    /// The first `count` cells; those behind are zero.
    fn cells(&self, count: usize) -> Vec<(u32, u32)> {
        let (concentration, flow) = (&self.concentration, &self.flow);
        assert!(concentration[count..].iter().chain(&flow[count..]).all(|&cell| cell == 0));
        (0..count).map(|cell| (concentration[cell], flow[cell])).collect()
    }

    /// Number and place of a refusal, which leaves nothing else.
    fn refused(&self) -> (u32, usize) {
        let reference::Answer { number, place, rows, totals } = self.answer;
        assert_eq!((rows, totals, self.cells(0).len()), (0, [0; 5], 0));
        assert!(self.rows.iter().all(|&cell| cell == 7));
        (number, place as usize)
    }
}

fn of_lines<L: Written>(lines: &[L]) -> Called {
    Called::with(&wire::file(lines))
}

fn of_records(records: &[Record]) -> (u32, usize) {
    Called::with(&bytes(records)).refused()
}

/// Outfall 7's line of chemical oxygen demand: `m` is 10 mg/L at 100 m3, `x` missing, `-` stopped.
fn line(days: &str) -> WaterLine {
    let day = |(number, letter): (usize, char)| match letter {
        'm' => WaterDay::measured(number as u8, 10.0, 100.0),
        'x' => WaterDay::missing(number as u8),
        _ => WaterDay::stopped(number as u8),
    };
    let head = WaterHead { outfall: 7, pollutant: 4, days: days.len() as u8 };
    let days = days.chars().enumerate().map(day).collect();
    WaterLine { head, days, enforcement: Vec::new(), plant: Vec::new() }
}

fn survey(day: u16, concentration: f32, flow: f32) -> Survey {
    Survey { hour: day, concentration, flow }
}

/// A sound line of a stack with one measured hour.
fn stack(stack: u16, pollutant: u8) -> Line {
    let mut day = Day::stopped(0);
    day.measure(5, 20.0, 1_000.0);
    let head = Head { stack, pollutant, ..STACK };
    Line { head, days: vec![day], enforcement: Vec::new(), plant: Vec::new(), batches: Vec::new() }
}

fn outfall(outfall: u16, pollutant: u8) -> WaterLine {
    let line = line("m");
    WaterLine { head: WaterHead { outfall, pollutant, ..line.head }, ..line }
}

#[test]
fn takes_the_method_that_the_days_leave() {
    let row = |line: &WaterLine| of_lines(std::slice::from_ref(line)).rows()[0];
    let twenty = survey(1, 20.0, 100.0);
    assert_eq!(row(&line("mmm")), [7, 4, 1, 3_000, 3, 0, 0]);
    assert_eq!(row(&line("-m-m")), [7, 4, 1, 2_000, 2, 0, 0]);
    assert_eq!(row(&line("---")), [7, 4, 1, 0, 0, 0, 0]);
    // A survey replaces, or stands for, what the day has.
    assert_eq!(row(&WaterLine { plant: vec![twenty], ..line("mmm") }), [7, 4, 1, 4_000, 3, 0, 0]);
    assert_eq!(row(&WaterLine { plant: vec![twenty], ..line("mxm") }), [7, 4, 1, 4_000, 3, 0, 0]);
    // One missing day of many is enough for surveys alone to speak: 2,000 g times 5 running days, stopped ones apart.
    assert_eq!(row(&WaterLine { enforcement: vec![twenty], ..line("mm-mmx") }), [7, 4, 2, 10_000, 5, 1, 6]);
    assert_eq!(row(&WaterLine { enforcement: vec![twenty], ..line("xxxx") }), [7, 4, 2, 8_000, 4, 3, 1]);
    for days in ["x", "xm", "mmmmmmmmmx", "-x-"] {
        let end = HEAD + RECORD * days.len();
        assert_eq!(of_lines(&[line(days)]).refused(), (18, end), "{days}");
    }
}

#[test]
fn counts_each_surveyed_day_once() {
    let (low, high) = (survey(0, 20.0, 100.0), survey(0, 70.0, 100.0));
    let other = survey(1, 40.0, 100.0);
    // Enforcement wins day 0: 2,000 and 4,000 g over two days, times three.
    let both = WaterLine { enforcement: vec![low], plant: vec![high, other], ..line("mxx") };
    let called = of_lines(&[both]);
    assert_eq!(called.rows(), [[7, 4, 2, 9_000, 3, 1, 3]]);
    assert_eq!(called.cells(3), [(2_000, 100), (4_000, 100), (0, 0)]);
    // All by surveys: automatic.
    let all = WaterLine { enforcement: vec![low, other], plant: vec![high], ..line("x-x") };
    assert_eq!(of_lines(std::slice::from_ref(&all)).refused(), (5, HEAD + 4 * RECORD));
    let all = WaterLine { plant: vec![high], enforcement: vec![low, survey(2, 30.0, 100.0)], ..all };
    let called = of_lines(&[all]);
    assert_eq!(called.rows(), [[7, 4, 1, 5_000, 2, 0, 0]]);
    assert_eq!(called.cells(3), [(2_000, 100), (0, 0), (3_000, 100)]);
}

#[test]
fn rounds_halves_up_once() {
    let row = |line: WaterLine| of_lines(&[line]).rows()[0];
    let of = |days: &[(f32, f32)]| {
        let days: Vec<WaterDay> = (0..).zip(days).map(|(day, &(c, l))| WaterDay::measured(day, c, l)).collect();
        row(WaterLine { head: WaterHead { days: days.len() as u8, ..line("m").head }, days, ..line("m") })[3]
    };
    // 0.49, 0.5, and twice 0.25 g; a reading rounds before.
    assert_eq!([of(&[(0.49, 1.0)]), of(&[(0.5, 1.0)]), of(&[(0.25, 1.0), (0.25, 1.0)])], [0, 1, 1]);
    assert_eq!([of(&[(0.494, 1.0)]), of(&[(0.496, 1.0)]), of(&[(1.0, 0.5)])], [0, 1, 1]);
    let surveys = |flows: [f32; 2]| (0..).zip(flows).map(|(day, flow)| survey(day, 0.5, flow)).collect();
    let manual = |flows| row(WaterLine { enforcement: surveys(flows), ..line("mmx") })[3];
    // 1, 2, 3 and 5 halves of a gram over two days, times three: 0.75, 1.5, 2.25 and 3.75 g.
    assert_eq!([[1.0, 0.0], [1.0, 1.0], [1.0, 2.0], [2.0, 3.0]].map(manual), [1, 2, 2, 4]);
}

#[test]
fn takes_the_limits() {
    let most = WaterDay::measured(0, 10_000.0 + 5.0 / 1024.0, 5_000_000.0);
    let days: Vec<WaterDay> = (0..92).map(|day| WaterDay { day, ..most }).collect();
    let full = WaterLine { head: WaterHead { days: 92, ..line("m").head }, days, ..line("m") };
    let called = of_lines(std::slice::from_ref(&full));
    assert_eq!(called.rows(), [[7, 4, 1, 92 * 50_000_000_000, 92, 0, 0]]);
    assert_eq!(called.cells(92), [(1_000_000, 5_000_000); 92]);
    // 120 surveys, and one more; 92 are by one office.
    let surveys = |count: u16| (0..count).map(|day| survey(day, 10_000.0, 5_000_000.0)).collect();
    let surveyed = |plant| WaterLine { enforcement: surveys(92), plant: surveys(plant), ..full.clone() };
    assert_eq!(of_lines(&[surveyed(28)]).rows()[0][3], 92 * 50_000_000_000);
    assert_eq!(of_lines(&[surveyed(29)]).refused(), (2, HEAD + 212 * RECORD));
    let past = WaterDay::measured(92, 1.0, 1.0);
    let days = [full.days.clone(), vec![past]].concat();
    assert_eq!(of_lines(&[WaterLine { days, ..full }]).refused(), (2, HEAD + 92 * RECORD));
}

#[test]
fn counts_48_lines_of_both_worlds() {
    let lines: Vec<AnyLine> = (0..49)
        .map(
            |number| {
                if number % 2 == 0 { AnyLine::Stack(stack(number, 1)) } else { AnyLine::Outfall(outfall(number, 5)) }
            },
        )
        .collect();
    let called = of_lines(&lines[..48]);
    assert_eq!(called.rows().len(), 48);
    assert_eq!(called.answer.totals, [24 * 20, 0, 0, 0, 24 * 1_000]);
    let place = wire::file(&lines[..48]).len();
    assert_eq!(of_lines(&lines).refused(), (2, place));
    // The 49th by an outfall, with fields that are wrong as well.
    let mut lines = lines;
    lines[48] = AnyLine::Outfall(outfall(48, 9));
    assert_eq!(of_lines(&lines).refused(), (2, place));
}

#[test]
fn names_the_head_field() {
    let of = |pollutant, days| {
        let line = line("m");
        of_lines(&[WaterLine { head: WaterHead { pollutant, days, outfall: 7 }, ..line }]).refused()
    };
    for pollutant in [0, 1, 2, 3, 6, 255] {
        assert_eq!((of(pollutant, 1), of(pollutant, 0)), ((14, 6), (14, 6)));
    }
    assert_eq!((of(4, 0), of(5, 93), of(4, 255)), ((14, 7), (14, 7), (14, 7)));
    for pollutant in [4, 5] {
        assert_eq!(of_lines(&[stack(7, pollutant)]).refused(), (14, 6));
    }
}

#[test]
fn names_the_field_of_a_day() {
    let of = |state: u8, pair| {
        let mut line = line("mmm");
        (line.days[1].state, line.days[1].pair) = (state, pair);
        let (number, place) = of_lines(&[line]).refused();
        (number, place - HEAD - RECORD)
    };
    for state in [3, 4, 128, 255] {
        assert_eq!((of(state, (1.0, 1.0)), of(state, (f32::NAN, -1.0))), ((15, 5), (15, 5)));
    }
    // What is refused in a measured day, and what is in another alone.
    for (state, wrong) in [(0, -0.0), (1, f32::MIN_POSITIVE), (2, -1.0), (2, f32::INFINITY), (2, 5_000_000.5)] {
        assert_eq!((of(state, (wrong, 0.0)), of(state, (wrong, wrong))), ((4, 6), (4, 6)));
        assert_eq!(of(state, (0.0, wrong)), (4, 10));
    }
    // 2 comes before a wrong state.
    let mut line = line("mmm");
    line.days[1] = WaterDay { day: 2, state: 3, pair: (f32::NAN, 0.0) };
    assert_eq!(of_lines(&[line]).refused(), (2, HEAD + RECORD));
}

#[test]
fn names_the_field_of_a_survey() {
    let of = |survey: Survey| {
        let both = [(vec![survey], Vec::new()), (Vec::new(), vec![survey])];
        let [first, second] =
            both.map(|(enforcement, plant)| of_lines(&[WaterLine { enforcement, plant, ..line("-mx") }]).refused());
        assert_eq!(first, second);
        (first.0, first.1 - HEAD - 3 * RECORD)
    };
    // Day 3 of three, though it would be an hour of the first day.
    for day in [3, 23, 92, u16::MAX] {
        assert_eq!((of(survey(day, 1.0, 1.0)), of(survey(day, f32::NAN, -1.0))), ((17, 4), (17, 4)));
    }
    // Day 0 is stopped: a bad reading is judged before.
    for day in [0, 1, 2] {
        assert_eq!(of(survey(day, -1.0, -1.0)), (4, 6));
        assert_eq!(of(survey(day, 1.0, 5_000_000.5)), (4, 10));
    }
    assert_eq!(of(survey(0, 1.0, 1.0)), (5, 0));
    let past_and_stopped = WaterLine { plant: vec![survey(0, 1.0, 1.0), survey(3, 1.0, 1.0)], ..line("-mx") };
    assert_eq!(of_lines(&[past_and_stopped]).refused(), (5, HEAD + 3 * RECORD));
}

#[test]
fn orders_surveys() {
    let (zero, one) = (survey(0, 1.0, 1.0), survey(1, 1.0, 1.0));
    let of = |surveys: &[Record]| {
        let mut records = line("mm").records();
        records.splice(3..3, surveys.iter().cloned());
        Called::with(&bytes(&records))
    };
    use Record::{WaterEnforcement, WaterPlant};
    let second = HEAD + 3 * RECORD;
    assert_eq!(of(&[WaterEnforcement(one), WaterPlant(zero)]).rows()[0][2], 1);
    assert_eq!(of(&[WaterEnforcement(one), WaterEnforcement(zero)]).refused(), (2, second));
    assert_eq!(of(&[WaterEnforcement(one), WaterEnforcement(one)]).refused(), (2, second));
    assert_eq!(of(&[WaterPlant(zero), WaterEnforcement(one)]).refused(), (2, second));
    assert_eq!(of(&[WaterPlant(zero), WaterPlant(zero)]).refused(), (2, second));
    // Past the period and not rising.
    let past = survey(2, f32::NAN, 1.0);
    assert_eq!(of(&[WaterEnforcement(past), WaterEnforcement(past)]).refused(), (17, second - RECORD + 4));
    assert_eq!(of(&[WaterPlant(one), WaterEnforcement(past)]).refused(), (2, second));
}

/// Every record of a line at every place of a line of the other world.
#[test]
fn refuses_the_other_world_inside_a_line() {
    let surveyed = |line: WaterLine| WaterLine { enforcement: vec![survey(0, 1.0, 1.0)], ..line };
    let of_water = WaterLine { plant: vec![survey(1, 1.0, 1.0)], ..surveyed(line("mm")) }.records();
    let air = Line { plant: vec![survey(5, 1.0, 1.0)], batches: vec![BATCH], ..stack(8, 2) };
    let of_air = Line { enforcement: vec![survey(5, 1.0, 1.0)], ..air }.records();
    for (line, others) in [(&of_water, &of_air), (&of_air, &of_water)] {
        for place in 1..line.len() {
            let offset = bytes(&line[..place]).len();
            for other in &others[..others.len() - 1] {
                let mut records = line.clone();
                records.insert(place, other.clone());
                assert_eq!(of_records(&records), (2, offset), "{other:?} at {place}");
            }
        }
        assert_eq!(Called::with(&bytes(line)).answer.number, 0);
    }
    // With no line open, too.
    for record in [of_water, of_air].iter().flat_map(|records| &records[1..]) {
        assert_eq!(of_records(std::slice::from_ref(record)), (2, 0));
    }
}

#[test]
fn refuses_another_form() {
    let records = WaterLine { enforcement: vec![survey(0, 1.0, 1.0)], plant: vec![survey(1, 1.0, 1.0)], ..line("mm") };
    let records = records.records();
    for place in 0..records.len() {
        let offset = bytes(&records[..place]).len();
        let sound = records[place].bytes();
        for change in [1, 2, u8::MAX] {
            let mut spoilt = records.clone();
            let mut of_record = sound.clone();
            // A length that is not its kind's, by a body that is as long as it says.
            of_record[0] = of_record[0].wrapping_add(change);
            of_record.resize(2 + usize::from(of_record[0]), 0);
            spoilt[place] = Record::Raw(of_record);
            assert_eq!(of_records(&spoilt), (1, offset));
        }
        for kind in [0, 7, 8, 13, 265] {
            let mut of_record = sound.clone();
            of_record[2..4].copy_from_slice(&u16::to_le_bytes(kind));
            let mut spoilt = records.clone();
            spoilt[place] = Record::Raw(of_record);
            assert_eq!(of_records(&spoilt), (1, offset), "kind {kind}");
        }
    }
    // Cut inside a record it is 1 there, and between records 2 at the file's end.
    let file = bytes(&records);
    let starts: Vec<usize> = (0..records.len()).map(|place| bytes(&records[..place]).len()).collect();
    for length in 1..file.len() {
        let start = *starts.iter().rfind(|&&start| start <= length).expect("a record starts before");
        let expected = if start == length { (2, length) } else { (1, start) };
        assert_eq!(Called::with(&file[..length]).refused(), expected);
    }
}

#[test]
fn asks_for_all_days_in_turn() {
    let of = |change: fn(&mut WaterLine)| {
        let mut line = line("mxm");
        change(&mut line);
        of_lines(&[line]).refused()
    };
    assert_eq!(of(|line| line.days[1].day = 0), (2, HEAD + RECORD));
    assert_eq!(of(|line| line.days[0].day = 1), (2, HEAD));
    assert_eq!(of(|line| line.days.truncate(2)), (2, HEAD + 2 * RECORD));
    assert_eq!(of(|line| line.days.push(WaterDay::stopped(3))), (2, HEAD + 3 * RECORD));
    assert_eq!(of(|line| line.head.days = 2), (2, HEAD + 2 * RECORD));
    let early = WaterLine { enforcement: vec![survey(0, 1.0, 1.0)], ..line("mm") };
    assert_eq!(of_lines(&[WaterLine { head: WaterHead { days: 3, ..early.head }, ..early }]).refused(), (2, HEAD + 28));
}

#[test]
fn rises_through_both_worlds() {
    let of = |lines: &[AnyLine]| of_lines(lines);
    let (air, water) = (|n, p| AnyLine::Stack(stack(n, p)), |n, p| AnyLine::Outfall(outfall(n, p)));
    let called = of(&[air(5, 1), air(5, 3), water(5, 4), water(5, 5), air(6, 2), water(7, 4)]);
    let names: Vec<[u64; 2]> = called.rows().iter().map(|row| [row[0], row[1]]).collect();
    assert_eq!(names, [[5, 1], [5, 3], [5, 4], [5, 5], [6, 2], [7, 4]]);
    assert_eq!(called.answer.totals, [20, 20, 20, 2_000, 1_000]);
    let after_water = HEAD + RECORD + END;
    let after_air = 14 + 205 + END;
    assert_eq!(of(&[water(5, 4), air(5, 3)]).refused(), (2, after_water));
    assert_eq!(of(&[water(5, 4), air(4, 3)]).refused(), (2, after_water));
    assert_eq!(of(&[water(5, 4), water(5, 4)]).refused(), (2, after_water));
    assert_eq!(of(&[water(5, 5), water(5, 4)]).refused(), (2, after_water));
    assert_eq!(of(&[air(6, 1), water(5, 4)]).refused(), (2, after_air));
    // Raw values are compared before ranges.
    assert_eq!(of(&[air(5, 3), water(5, 3)]).refused(), (2, after_air));
    assert_eq!(of(&[air(5, 1), water(5, 3)]).refused(), (14, after_air + 6));
    assert_eq!(of(&[water(5, 4), air(5, 4)]).refused(), (2, after_water));
    assert_eq!(of(&[water(5, 4), air(5, 5)]).refused(), (14, after_water + 6));
}

#[test]
fn leaves_the_cells_of_the_last_line() {
    let air = AnyLine::Stack(stack(1, 1));
    let surveyed = WaterLine { enforcement: vec![survey(2, 30.0, 5.0)], ..line("m-xx") };
    let called = of_lines(&[air.clone(), AnyLine::Outfall(surveyed.clone())]);
    assert_eq!(called.cells(4), [(1_000, 100), (0, 0), (3_000, 5), (0, 0)]);
    // Behind a longer line of water, and before a stack's.
    let long = WaterLine { head: WaterHead { days: 9, ..line("m").head }, ..line("mmmmmmmmm") };
    let short = WaterLine { head: WaterHead { outfall: 8, ..line("mm").head }, ..line("mm") };
    let called = of_lines(&[long, short]);
    assert_eq!(called.cells(2), [(1_000, 100); 2]);
    let called = of_lines(&[AnyLine::Outfall(surveyed), AnyLine::Stack(stack(8, 1))]);
    assert_eq!((called.cells(24)[5], called.cells(24)[0]), ((2_000, 1_000), (0, 0)));
}

/// What a line is refused with at its end comes before any fault behind it.
#[test]
fn refuses_in_the_order_of_the_file() {
    let mut dark = stack(1, 1);
    dark.days[0].miss(5);
    let wrong = WaterLine { head: WaterHead { outfall: 9, days: 0, ..line("m").head }, ..line("m") };
    let end = HEAD + RECORD;
    assert_eq!(of_lines(&[line("x"), wrong.clone()]).refused(), (18, end));
    assert_eq!(of_lines(&[line("m"), wrong.clone()]).refused(), (14, end + END + 7));
    assert_eq!(of_lines(&[AnyLine::Stack(dark), AnyLine::Outfall(wrong)]).refused(), (6, 14 + 205));
    let no_room = reference::account(&wire::file(&[line("m")]), &mut [0; 6], &mut [1; HOURS], &mut [1; HOURS]);
    assert_eq!((no_room.number, no_room.place, no_room.totals), (8, 0, [0; 5]));
    let no_room = reference::account(&wire::file(&[line("x")]), &mut [0; 6], &mut [1; HOURS], &mut [1; HOURS]);
    assert_eq!((no_room.number, no_room.place), (18, end as u64));
}

#[test]
fn prints_five_totals() {
    let lines = [AnyLine::Stack(stack(1, 3)), AnyLine::Outfall(outfall(1, 5))];
    let printed = reference::printed(&wire::file(&lines));
    assert_eq!(printed, "1 3 1 20 1 0 0\n1 5 1 1000 1 0 0\ntotal 0 0 20 0 1000\n");
    assert_eq!(reference::printed(&[]), "total 0 0 0 0 0\n");
    assert_eq!(reference::printed(&wire::file(&[line("x")])), "refused 18 22\n");
}
