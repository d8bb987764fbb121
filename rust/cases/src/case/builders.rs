//! Past entries, and events with figures in some of their hours, for tests that write a case by hand; each has the
//! capability period of its day.

use attachment_h::{Component, Kind, Market};

use super::{BidHour, Conduct, DispatchHour, EVERY_HOUR, Event, FuelHour, Past, WithheldHour};
use crate::calendar::period_of;

impl Past {
    /// An entry of that day.
    pub fn of_day(group: u16, kind: Kind, market: Market, day: u32) -> Past {
        Past {
            group,
            kind,
            market,
            period: period_of(day),
            day,
        }
    }
}

impl Event {
    /// A withheld event with impact 1 and no Shadow Price; hours as (hour, a, b).
    pub fn withheld(day: u32, market: Market, unit: u32, cells: &[(usize, u32, i32)]) -> Event {
        let mut hours = [WithheldHour::default(); 24];
        for &(hour, withheld, price) in cells {
            hours[hour] = WithheldHour { withheld, price };
        }
        let conduct = Conduct::Withheld {
            impact: 1,
            shadow_price: 0,
            hours,
        };
        Event {
            day,
            market,
            unit,
            period: period_of(day),
            conduct,
        }
    }

    /// A Real-Time dispatch event with impact 1 and no Shadow Price; hours as (hour, a, b).
    pub fn dispatch(day: u32, unit: u32, cells: &[(usize, u32, u32)]) -> Event {
        let mut hours = [DispatchHour::default(); 24];
        for &(hour, undelivered, added_revenue) in cells {
            hours[hour] = DispatchHour {
                undelivered,
                added_revenue,
            };
        }
        let conduct = Conduct::Dispatch {
            impact: 1,
            shadow_price: 0,
            hours,
        };
        Event {
            day,
            market: Market::REAL_TIME,
            unit,
            period: period_of(day),
            conduct,
        }
    }

    /// A fuel event with its P, Q and R; hours as (hour, a, b).
    pub fn fuel(
        day: u32,
        market: Market,
        unit: u32,
        (inaccurate, guarantee_change, tcc_change): (u32, i32, i32),
        cells: &[(usize, u32, i32)],
    ) -> Event {
        let mut hours = [FuelHour::default(); 24];
        for &(hour, energy, price_change) in cells {
            hours[hour] = FuelHour {
                energy,
                price_change,
            };
        }
        let conduct = Conduct::Fuel {
            inaccurate,
            guarantee_change,
            tcc_change,
            hours,
        };
        Event {
            day,
            market,
            unit,
            period: period_of(day),
            conduct,
        }
    }

    /// A bids event with impact in every hour, R 0 and no Shadow Price; hours as (hour, a, b, m),
    /// and the other hours with bid `elsewhere`.
    pub fn bids(
        day: u32,
        market: Market,
        unit: u32,
        component: u8,
        elsewhere: i32,
        cells: &[(usize, i32, i32, u32)],
    ) -> Event {
        let mut hours = [BidHour {
            bid: elsewhere,
            price: 0,
            quantity: 0,
        }; 24];
        for &(hour, bid, price, quantity) in cells {
            hours[hour] = BidHour {
                bid,
                price,
                quantity,
            };
        }
        let conduct = Conduct::Bids {
            component: Component(component),
            shadow_price: 0,
            impact: EVERY_HOUR,
            minimum_run_hours: 0,
            hours,
        };
        Event {
            day,
            market,
            unit,
            period: period_of(day),
            conduct,
        }
    }

    /// The event in another capability period.
    pub fn in_period(mut self, number: u16) -> Event {
        self.period = number;
        self
    }

    /// The event with another impact: 0 or 1 in kinds 1 and 2, a mask of hours in kind 4.
    pub fn with_impact(mut self, value: u32) -> Event {
        match &mut self.conduct {
            Conduct::Withheld { impact, .. } | Conduct::Dispatch { impact, .. } => {
                *impact = value as u8;
            }
            Conduct::Bids { impact, .. } => *impact = value,
            Conduct::Fuel { .. } => {}
        }
        self
    }

    /// The event with Shadow Prices in these hours.
    pub fn with_shadow_price(mut self, mask: u32) -> Event {
        match &mut self.conduct {
            Conduct::Withheld { shadow_price, .. }
            | Conduct::Dispatch { shadow_price, .. }
            | Conduct::Bids { shadow_price, .. } => *shadow_price = mask,
            Conduct::Fuel { .. } => {}
        }
        self
    }

    /// The bids event with other minimum run hours.
    pub fn with_minimum_run_hours(mut self, number: u32) -> Event {
        if let Conduct::Bids {
            minimum_run_hours, ..
        } = &mut self.conduct
        {
            *minimum_run_hours = number;
        }
        self
    }
}
