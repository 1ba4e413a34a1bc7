//! Coefficients: tables 1, 2 and A.1.

#[derive(Clone, Copy, Debug, PartialEq, Eq)]
pub(crate) enum Furnace {
    DryAsh,
    LiquidSlag,
    CirculatingBed,
    Grate,
}

impl Furnace {
    pub fn from_code(code: u8) -> Option<Self> {
        Some(match code {
            1 => Furnace::DryAsh,
            2 => Furnace::LiquidSlag,
            3 => Furnace::CirculatingBed,
            4 => Furnace::Grate,
            _ => return None,
        })
    }
}

/// One row of table A.1.
struct Class {
    /// The smallest MW of the class.
    from: u16,
    pulverised: AshFactors,
    bed: Option<AshFactors>,
    /// By volatile mark, for pulverised furnaces.
    oxides: [Option<u64>; 4],
}

/// The dust coefficient is `slope` x ash + `base`, in 0.01 kg/t.
#[derive(Clone, Copy, Debug, PartialEq, Eq)]
pub(crate) struct AshFactors {
    pub slope: u64,
    pub base: u64,
}

const fn ash(slope: u64, base: u64) -> AshFactors {
    AshFactors { slope, base }
}

const fn class(from: u16, pulverised: AshFactors, bed: Option<AshFactors>, oxides: [u64; 4]) -> Class {
    let [first, second, third, fourth] = oxides;
    Class { from, pulverised, bed, oxides: [Some(first), Some(second), Some(third), Some(fourth)] }
}

const CLASSES: [Class; 8] = [
    Class { from: 750, pulverised: ash(923, 876), bed: None, oxides: [None, None, Some(609), Some(410)] },
    class(450, ash(920, 933), None, [795, 672, 607, 408]),
    class(250, ash(921, 1113), Some(ash(631, 754)), [801, 665, 582, 407]),
    class(150, ash(933, 777), Some(ash(624, 757)), [768, 661, 561, 394]),
    class(75, ash(931, 918), Some(ash(631, 727)), [749, 658, 548, 386]),
    class(35, ash(936, 1044), Some(ash(624, 724)), [690, 592, 413, 304]),
    class(20, ash(916, 45), Some(ash(630, 779)), [647, 528, 392, 301]),
    class(9, ash(918, 756), Some(ash(630, 897)), [582, 407, 308, 296]),
];

/// The grate stands in the smallest class only.
const GRATE_BELOW: u16 = 20;
const GRATE_OXIDES: [u64; 4] = [561, 500, 438, 422];

fn class_of(megawatts: u16) -> Option<&'static Class> {
    CLASSES.iter().find(|class| megawatts >= class.from)
}

/// q in 0.1 %: what stays unburnt.
pub(crate) fn unburnt(furnace: Furnace, coal: u8) -> Option<u64> {
    use Furnace::*;
    Some(match (furnace, coal) {
        (DryAsh, 1) => 40,
        (DryAsh, 2 | 3) => 20,
        (DryAsh, 4) => 15,
        (DryAsh, 5) => 5,
        (DryAsh, 6) => 30,
        (DryAsh, 7) => 25,
        (LiquidSlag, 1) => 20,
        (LiquidSlag, 3 | 4) => 10,
        (LiquidSlag, 5) => 5,
        (CirculatingBed, 1) => 25,
        (CirculatingBed, 3 | 4) => 20,
        _ => return None,
    })
}

/// K in 0.01: the share of the sulphur that leaves as dioxide.
pub(crate) fn released(furnace: Furnace) -> Option<u64> {
    match furnace {
        Furnace::DryAsh | Furnace::LiquidSlag => Some(90),
        Furnace::CirculatingBed => Some(85),
        Furnace::Grate => None,
    }
}

/// The dust factors of a boiler.
pub(crate) fn dust(furnace: Furnace, coal: u8, megawatts: u16) -> Option<AshFactors> {
    match furnace {
        Furnace::DryAsh | Furnace::LiquidSlag => class_of(megawatts).map(|class| class.pulverised),
        Furnace::CirculatingBed => class_of(megawatts)?.bed,
        Furnace::Grate if megawatts < GRATE_BELOW => match coal {
            1 => Some(ash(185, 0)),
            3..=5 => Some(ash(160, 0)),
            _ => None,
        },
        Furnace::Grate => None,
    }
}

/// The oxides coefficient of a boiler, in 0.01 kg/t; `mark` is 1 to 4.
pub(crate) fn oxides(furnace: Furnace, megawatts: u16, mark: u8) -> Option<u64> {
    let mark = usize::from(mark) - 1;
    match furnace {
        Furnace::DryAsh | Furnace::LiquidSlag => class_of(megawatts)?.oxides[mark],
        Furnace::Grate if megawatts < GRATE_BELOW => Some(GRATE_OXIDES[mark]),
        Furnace::CirculatingBed | Furnace::Grate => None,
    }
}
