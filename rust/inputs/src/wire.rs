//! Records as they are written; every field takes any value, so that faulty files can be written too.

#[derive(Clone, Copy, Debug)]
pub struct Head {
    pub stack: u16,
    pub pollutant: u8,
    pub required: u8,
    pub furnace: u8,
    pub coal: u8,
    pub megawatts: u16,
    pub mark: u8,
    pub days: u8,
}

#[derive(Clone, Copy, Debug)]
pub struct Day {
    pub day: u8,
    pub run: u32,
    pub measured: u32,
    pub pairs: [(f32, f32); 24],
}

/// A survey of an hour, of an outfall that of a day.
#[derive(Clone, Copy, Debug)]
pub struct Survey {
    pub hour: u16,
    pub concentration: f32,
    pub flow: f32,
}

#[derive(Clone, Copy, Debug)]
pub struct Batch {
    pub kg: u64,
    pub sulphur: u16,
    pub ash: u16,
}

#[derive(Clone, Debug)]
pub struct Line {
    pub head: Head,
    pub days: Vec<Day>,
    pub enforcement: Vec<Survey>,
    pub plant: Vec<Survey>,
    pub batches: Vec<Batch>,
}

/// The head of an outfall's line.
#[derive(Clone, Copy, Debug)]
pub struct WaterHead {
    pub outfall: u16,
    pub pollutant: u8,
    pub days: u8,
}

#[derive(Clone, Copy, Debug)]
pub struct WaterDay {
    pub day: u8,
    /// 0 is stopped, 1 missing, 2 measured.
    pub state: u8,
    pub pair: (f32, f32),
}

/// A line of discharge water, whose surveys are by day.
#[derive(Clone, Debug)]
pub struct WaterLine {
    pub head: WaterHead,
    pub days: Vec<WaterDay>,
    pub enforcement: Vec<Survey>,
    pub plant: Vec<Survey>,
}

/// A line of a file that has stacks and outfalls.
#[derive(Clone, Debug)]
pub enum AnyLine {
    Stack(Line),
    Outfall(WaterLine),
}

#[derive(Clone, Debug)]
pub enum Record {
    Head(Head),
    Day(Box<Day>),
    Enforcement(Survey),
    Plant(Survey),
    Batch(Batch),
    WaterHead(WaterHead),
    WaterDay(WaterDay),
    WaterEnforcement(Survey),
    WaterPlant(Survey),
    End,
    /// Bytes as they stand, for records of no proper form.
    Raw(Vec<u8>),
}

impl Day {
    /// A day whose hours are all of them stopped.
    pub fn stopped(day: u8) -> Self {
        Day { day, run: 0, measured: 0, pairs: [(0.0, 0.0); 24] }
    }

    /// Marks an hour as measured.
    pub fn measure(&mut self, hour: usize, concentration: f32, flow: f32) {
        self.run |= 1 << hour;
        self.measured |= 1 << hour;
        self.pairs[hour] = (concentration, flow);
    }

    /// Marks an hour as missing.
    pub fn miss(&mut self, hour: usize) {
        self.run |= 1 << hour;
        self.measured &= !(1 << hour);
        self.pairs[hour] = (0.0, 0.0);
    }

    /// Marks an hour as stopped.
    pub fn stop(&mut self, hour: usize) {
        self.run &= !(1 << hour);
        self.measured &= !(1 << hour);
        self.pairs[hour] = (0.0, 0.0);
    }
}

impl WaterDay {
    pub fn stopped(day: u8) -> Self {
        WaterDay { day, state: 0, pair: (0.0, 0.0) }
    }

    pub fn missing(day: u8) -> Self {
        WaterDay { day, state: 1, pair: (0.0, 0.0) }
    }

    pub fn measured(day: u8, concentration: f32, flow: f32) -> Self {
        WaterDay { day, state: 2, pair: (concentration, flow) }
    }
}

impl Line {
    pub fn records(&self) -> Vec<Record> {
        let mut records = vec![Record::Head(self.head)];
        records.extend(self.days.iter().map(|&day| Record::Day(Box::new(day))));
        records.extend(self.enforcement.iter().copied().map(Record::Enforcement));
        records.extend(self.plant.iter().copied().map(Record::Plant));
        records.extend(self.batches.iter().copied().map(Record::Batch));
        records.push(Record::End);
        records
    }
}

impl WaterLine {
    pub fn records(&self) -> Vec<Record> {
        let mut records = vec![Record::WaterHead(self.head)];
        records.extend(self.days.iter().copied().map(Record::WaterDay));
        records.extend(self.enforcement.iter().copied().map(Record::WaterEnforcement));
        records.extend(self.plant.iter().copied().map(Record::WaterPlant));
        records.push(Record::End);
        records
    }
}

/// A line of either world, or of one that is known.
pub trait Written {
    fn written(&self) -> Vec<Record>;
}

impl Written for Line {
    fn written(&self) -> Vec<Record> {
        self.records()
    }
}

impl Written for WaterLine {
    fn written(&self) -> Vec<Record> {
        self.records()
    }
}

impl Written for AnyLine {
    fn written(&self) -> Vec<Record> {
        match self {
            AnyLine::Stack(line) => line.records(),
            AnyLine::Outfall(line) => line.records(),
        }
    }
}

impl Record {
    /// The record's bytes after its length, or `None` for raw bytes.
    fn content(&self) -> Option<Vec<u8>> {
        Some(match self {
            Record::Head(head) => head_bytes(head),
            Record::Day(day) => day_bytes(day),
            Record::Enforcement(survey) => survey_bytes(3, survey),
            Record::Plant(survey) => survey_bytes(4, survey),
            Record::Batch(batch) => batch_bytes(batch),
            Record::WaterHead(head) => water_head_bytes(head),
            Record::WaterDay(day) => water_day_bytes(day),
            Record::WaterEnforcement(survey) => survey_bytes(11, survey),
            Record::WaterPlant(survey) => survey_bytes(12, survey),
            Record::End => 6u16.to_le_bytes().to_vec(),
            Record::Raw(_) => return None,
        })
    }

    pub fn bytes(&self) -> Vec<u8> {
        match (self.content(), self) {
            (Some(content), _) => [&(content.len() as u16).to_le_bytes(), content.as_slice()].concat(),
            (None, Record::Raw(bytes)) => bytes.clone(),
            (None, _) => Vec::new(),
        }
    }
}

fn head_bytes(head: &Head) -> Vec<u8> {
    let mut bytes = 1u16.to_le_bytes().to_vec();
    bytes.extend(head.stack.to_le_bytes());
    bytes.extend([head.pollutant, head.required, head.furnace, head.coal]);
    bytes.extend(head.megawatts.to_le_bytes());
    bytes.extend([head.mark, head.days]);
    bytes
}

fn day_bytes(day: &Day) -> Vec<u8> {
    let mut bytes = Vec::with_capacity(203);
    bytes.extend(2u16.to_le_bytes());
    bytes.push(day.day);
    bytes.extend(day.run.to_le_bytes());
    bytes.extend(day.measured.to_le_bytes());
    for (concentration, flow) in day.pairs {
        bytes.extend(concentration.to_le_bytes());
        bytes.extend(flow.to_le_bytes());
    }
    bytes
}

fn survey_bytes(kind: u16, survey: &Survey) -> Vec<u8> {
    let mut bytes = kind.to_le_bytes().to_vec();
    bytes.extend(survey.hour.to_le_bytes());
    bytes.extend(survey.concentration.to_le_bytes());
    bytes.extend(survey.flow.to_le_bytes());
    bytes
}

fn batch_bytes(batch: &Batch) -> Vec<u8> {
    let mut bytes = 5u16.to_le_bytes().to_vec();
    bytes.extend(batch.kg.to_le_bytes());
    bytes.extend(batch.sulphur.to_le_bytes());
    bytes.extend(batch.ash.to_le_bytes());
    bytes
}

fn water_head_bytes(head: &WaterHead) -> Vec<u8> {
    let mut bytes = 9u16.to_le_bytes().to_vec();
    bytes.extend(head.outfall.to_le_bytes());
    bytes.extend([head.pollutant, head.days]);
    bytes
}

fn water_day_bytes(day: &WaterDay) -> Vec<u8> {
    let mut bytes = 10u16.to_le_bytes().to_vec();
    bytes.extend([day.day, day.state]);
    bytes.extend(day.pair.0.to_le_bytes());
    bytes.extend(day.pair.1.to_le_bytes());
    bytes
}

/// The records of a file, one after another.
pub fn records<L: Written>(lines: &[L]) -> Vec<Record> {
    lines.iter().flat_map(L::written).collect()
}

/// The bytes of a file of records.
pub fn bytes(records: &[Record]) -> Vec<u8> {
    records.iter().flat_map(Record::bytes).collect()
}

/// The bytes of a file of lines.
pub fn file<L: Written>(lines: &[L]) -> Vec<u8> {
    bytes(&records(lines))
}
