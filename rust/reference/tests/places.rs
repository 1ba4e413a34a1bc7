//! Request A1: each field that can be refused, with its number and its place in the file.

use inputs::wire::{self, Batch, Day, Head, Line, Survey};

const DAY: usize = 14;
const ENFORCEMENT: usize = 14 + 205;
const PLANT: usize = ENFORCEMENT + 14;
const BATCH: usize = PLANT + 14;
const SECOND_BATCH: usize = BATCH + 16;
/// The second line, which is as long as the first.
const SECOND: usize = SECOND_BATCH + 16 + 4;

/// Hours 0 to 11 are measured, 12 to 17 missing, 18 to 23 stopped.
fn day() -> Day {
    let mut day = Day::stopped(0);
    (0..12).for_each(|hour| day.measure(hour, 20.0, 1_000.0));
    (12..18).for_each(|hour| day.miss(hour));
    day
}

fn line(stack: u16) -> Line {
    let survey = Survey { hour: 5, concentration: 10.0, flow: 500.0 };
    let batch = Batch { kg: 4_000_000_000, sulphur: 80, ash: 2_000 };
    Line {
        head: Head { stack, pollutant: 2, required: 1, furnace: 1, coal: 4, megawatts: 300, mark: 1, days: 1 },
        days: vec![day()],
        enforcement: vec![survey],
        plant: vec![survey],
        batches: vec![batch, batch],
    }
}

/// Number and place for two lines, of which `spoil` spoils the second.
fn refused(spoil: impl FnOnce(&mut Line)) -> (u32, usize) {
    let mut lines = [line(1), line(2)];
    spoil(&mut lines[1]);
    let (mut concentration, mut flow) = ([7; reference::HOURS], [7; reference::HOURS]);
    let answer = reference::account(&wire::file(&lines), &mut [0; 14], &mut concentration, &mut flow);
    assert!(answer.number == 0 || (concentration, flow) == ([0; reference::HOURS], [0; reference::HOURS]));
    (answer.number, answer.place as usize)
}

#[test]
fn accepts_the_unspoilt_lines() {
    assert_eq!(refused(|_| {}), (0, 0));
}

#[test]
fn names_the_head_field() {
    type Spoil = fn(&mut Head);
    // The second line's stack rises, so that a pollutant of 0 is not out of place.
    let fields: [(usize, Spoil); 7] = [
        (6, |head| head.pollutant = 0),
        (7, |head| head.required = 2),
        (8, |head| head.furnace = 5),
        (9, |head| head.coal = 0),
        (10, |head| head.megawatts = 8),
        (12, |head| head.mark = 5),
        (13, |head| head.days = 93),
    ];
    for (number, (offset, spoil)) in fields.into_iter().enumerate() {
        assert_eq!(refused(|line| spoil(&mut line.head)), (14, SECOND + offset));
        for (_, later) in &fields[number + 1..] {
            let both = |line: &mut Line| [*later, spoil].iter().for_each(|spoil| spoil(&mut line.head));
            assert_eq!(refused(both), (14, SECOND + offset));
        }
    }
    assert_eq!(refused(|line| line.head = Head { stack: 1, furnace: 0, ..line.head }), (2, SECOND));
}

#[test]
fn names_the_mask() {
    let refused = |spoil: fn(&mut Day)| refused(|line| spoil(&mut line.days[0]));
    assert_eq!(refused(|day| day.run |= 1 << 24), (15, SECOND + DAY + 5));
    assert_eq!(refused(|day| day.measured |= 1 << 31), (15, SECOND + DAY + 9));
    assert_eq!(refused(|day| day.measured |= 1 << 23), (15, SECOND + DAY + 9));
    // A run bit of its own does not make a measured bit 24 up lawful: both masks are wrong, and run is the first.
    assert_eq!(refused(|day| (day.run, day.measured) = (1 << 25, 1 << 25)), (15, SECOND + DAY + 5));
    assert_eq!(refused(|day| (day.measured, day.pairs[0]) = (1 << 18, (-1.0, -1.0))), (15, SECOND + DAY + 9));
    assert_eq!(refused(|day| (day.day, day.run) = (1, 1 << 24)), (2, SECOND + DAY));
}

#[test]
fn names_the_first_reading_of_a_day() {
    let pair_of = |hour: usize| SECOND + DAY + 13 + 8 * hour;
    for hour in 0..24 {
        // What is refused in a measured hour, and what is refused in another alone.
        let wrong = if hour < 12 { f32::NAN } else { -0.0 };
        let refused = |pair| refused(|line| line.days[0].pairs[hour] = pair);
        assert_eq!(refused((wrong, 0.0)), (4, pair_of(hour)));
        assert_eq!(refused((0.0, wrong)), (4, pair_of(hour) + 4));
        assert_eq!(refused((wrong, wrong)), (4, pair_of(hour)));
    }
    let of_two = |measured: usize, unmeasured: usize| {
        refused(|line| {
            let day = &mut line.days[0];
            day.measure(measured, 1.0, 5_000_000.5);
            day.miss(unmeasured);
            day.pairs[unmeasured] = (0.0, 1.0);
        })
    };
    assert_eq!(of_two(3, 4), (4, pair_of(3) + 4));
    assert_eq!(of_two(4, 3), (4, pair_of(3) + 4));
    assert_eq!(of_two(0, 23), (4, pair_of(0) + 4));
    assert_eq!(of_two(23, 0), (4, pair_of(0) + 4));
}

#[test]
fn names_the_fuel_field() {
    let of_first = |first: Batch| refused(|line| line.batches[0] = first);
    let of_second = |second: Batch| refused(|line| line.batches[1] = second);
    let batch = line(2).batches[0];
    assert_eq!(of_first(Batch { kg: 0, ..batch }), (16, SECOND + BATCH + 4));
    assert_eq!(of_first(Batch { kg: 10_000_000_001, ..batch }), (16, SECOND + BATCH + 4));
    assert_eq!(of_second(Batch { kg: 6_000_000_000, ..batch }), (0, 0));
    assert_eq!(of_second(Batch { kg: 6_000_000_001, ..batch }), (16, SECOND + SECOND_BATCH + 4));
    assert_eq!(of_second(Batch { kg: u64::MAX, ..batch }), (16, SECOND + SECOND_BATCH + 4));
    assert_eq!(of_second(Batch { ash: 10_001, ..batch }), (16, SECOND + SECOND_BATCH + 14));
    // The sum is judged with the kg, before a wrong sulphur.
    let wrong = Batch { kg: 6_000_000_001, sulphur: 2_001, ash: 10_001 };
    assert_eq!(of_second(wrong), (16, SECOND + SECOND_BATCH + 4));
    assert_eq!(of_second(Batch { kg: 1, ..wrong }), (16, SECOND + SECOND_BATCH + 12));
}

#[test]
fn names_the_survey_field() {
    let wrong = Survey { hour: 24, concentration: f32::INFINITY, flow: -1.0 };
    for (record, plant) in [(ENFORCEMENT, false), (PLANT, true)] {
        let refused =
            |survey: Survey| refused(|line| if plant { line.plant[0] = survey } else { line.enforcement[0] = survey });
        assert_eq!(refused(wrong), (17, SECOND + record + 4));
        assert_eq!(refused(Survey { hour: 23, ..wrong }), (4, SECOND + record + 6));
        assert_eq!(refused(Survey { hour: 23, concentration: 1.0, ..wrong }), (4, SECOND + record + 10));
        assert_eq!(refused(Survey { hour: 23, concentration: 1.0, flow: 1.0 }), (5, SECOND + record));
    }
}
