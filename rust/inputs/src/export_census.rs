//! What a run over text exports has reached.

use std::collections::BTreeMap;

use crate::damage_export::Damage;
use crate::export::Export;

/// Faults that meet, of which the order decides.
#[derive(Clone, Copy, Debug, PartialEq, Eq, PartialOrd, Ord)]
pub enum Order {
    LineBeforeRange,
    LineBeforeRoom,
    RangeBeforeRoom,
    UnfinishedBeforeRange,
    UnfinishedBeforeRoom,
    Past91BeforeRoom,
    /// No room for a day whose later line is at fault.
    RoomBeforeLaterLine,
    /// Two lines at fault.
    FirstLine,
}

impl Order {
    const ALL: [Order; 8] = [
        Order::LineBeforeRange,
        Order::LineBeforeRoom,
        Order::RangeBeforeRoom,
        Order::UnfinishedBeforeRange,
        Order::UnfinishedBeforeRoom,
        Order::Past91BeforeRoom,
        Order::RoomBeforeLaterLine,
        Order::FirstLine,
    ];
}

/// How the bytes that are lent stand to those that a sound text needs.
#[derive(Clone, Copy, Debug, PartialEq, Eq, PartialOrd, Ord)]
pub enum Room {
    None,
    AByteShort,
    Exact,
    AByteOver,
    MoreOver,
}

impl Room {
    const ALL: [Room; 5] = [Room::None, Room::AByteShort, Room::Exact, Room::AByteOver, Room::MoreOver];

    fn of(room: usize, days: usize) -> Option<Self> {
        let needed = 205 * days;
        match room {
            _ if days == 0 => None,
            0 => Some(Room::None),
            _ if room + 1 == needed => Some(Room::AByteShort),
            _ if room == needed => Some(Room::Exact),
            _ if room == needed + 1 => Some(Room::AByteOver),
            _ if room > needed => Some(Room::MoreOver),
            _ => None,
        }
    }
}

/// Counts by number, damage that was named, order of faults that meet, and room.
#[derive(Debug, Default)]
pub struct ExportCensus {
    pub inputs: u64,
    pub bytes: u64,
    pub numbers: [u64; 22],
    /// Days of the texts that were accepted, and those texts that were of 92 days or of none.
    pub days: u64,
    pub quarters: u64,
    pub empty: u64,
    pub damages: BTreeMap<Damage, u64>,
    pub orders: BTreeMap<Order, u64>,
    pub rooms: BTreeMap<Room, u64>,
}

impl ExportCensus {
    /// Counts what an export has reached; fails where the answer does not fit what was done to it.
    pub fn count(&mut self, export: &Export, [number, line, count]: [u64; 3]) -> Result<(), String> {
        if let Some(answer) = export.answer().filter(|&answer| answer != (number, line)) {
            return Err(format!("the text was made for {answer:?}, and the answer is {:?}", (number, line)));
        }
        self.inputs += 1;
        self.bytes += export.text.len() as u64;
        self.numbers[number as usize] += 1;
        if number == 0 {
            self.count_accepted(export, count)
        } else {
            self.count_refused(export, number, line);
            Ok(())
        }
    }

    fn count_accepted(&mut self, export: &Export, count: u64) -> Result<(), String> {
        if export.damages.is_some() && count != 205 * export.days as u64 {
            return Err(format!("{} days were made, and {count} bytes are answered", export.days));
        }
        self.days += count / 205;
        self.quarters += u64::from(count == 205 * 92);
        self.empty += u64::from(count == 0);
        self.count_room(export);
        Ok(())
    }

    fn count_room(&mut self, export: &Export) {
        if let Some(room) = Room::of(export.room, export.days) {
            *self.rooms.entry(room).or_default() += 1;
        }
    }

    fn count_refused(&mut self, export: &Export, number: u64, line: u64) {
        let damages = export.damages.as_deref().unwrap_or_default();
        let named = || damages.iter().filter(|damaged| damaged.line == line).map(|damaged| damaged.damage);
        for damage in named().filter(|damage| damage.number() == number) {
            *self.damages.entry(damage).or_default() += 1;
        }
        let over = named().any(|damage| damage.number() == 20);
        let unfinished = named().any(|damage| damage == Damage::UnfinishedDay);
        let past_91 = named().any(|damage| damage == Damage::DayPast91);
        let no_room = export.line_without_room() == Some(line) || past_91 && export.room < 205 * 93;
        let later = damages.iter().any(|damaged| damaged.line > line);
        let orders = [
            (Order::LineBeforeRange, number == 19 && over && !unfinished),
            (Order::LineBeforeRoom, number == 19 && no_room && !unfinished),
            (Order::RangeBeforeRoom, number == 20 && no_room && !past_91),
            (Order::UnfinishedBeforeRange, unfinished && over),
            (Order::UnfinishedBeforeRoom, unfinished && no_room),
            (Order::Past91BeforeRoom, past_91 && no_room),
            (Order::RoomBeforeLaterLine, number == 21 && later),
            (Order::FirstLine, number != 21 && later),
        ];
        for (order, _) in orders.into_iter().filter(|(_, met)| *met) {
            *self.orders.entry(order).or_default() += 1;
        }
        if number == 21 {
            self.count_room(export);
        }
    }

    /// All that a run has to reach, in words and with how often it did.
    pub fn reached(&self) -> Vec<(String, u64)> {
        let numbers = [0, 19, 20, 21].map(|number| (format!("number {number}"), self.numbers[number]));
        let accepted = [("92 days accepted", self.quarters), ("an empty text accepted", self.empty)];
        let accepted = accepted.map(|(name, count)| (name.to_string(), count));
        let damages = Damage::all().map(|damage| {
            let count = self.damages.get(&damage).copied().unwrap_or(0);
            (format!("number {} for {damage:?}", damage.number()), count)
        });
        let orders = Order::ALL.map(|order| {
            let count = self.orders.get(&order).copied().unwrap_or(0);
            (format!("order {order:?}"), count)
        });
        let rooms = Room::ALL.map(|room| {
            let count = self.rooms.get(&room).copied().unwrap_or(0);
            (format!("room {room:?}"), count)
        });
        numbers.into_iter().chain(accepted).chain(damages).chain(orders).chain(rooms).collect()
    }
}
