// Generated from crates/tz_civil/src/date/days.rt by bindings/erase: its contracts are cut. Change that file instead.
//! Dates a few days later, by the lengths of months.

use super::Date;
use crate::proved::tz_base::calendar::days_in_month;

impl Date {
    /// The date up to four weeks later, which is of this month or the next one.
    pub(super) const fn add_up_to_28_days(self, days: u8) -> Option<Self> {
        let month_day = self.month_day + days;
        // Each month has 28 days.
        if month_day <= 28 {
            return Some(Date {
                year: self.year,
                month: self.month,
                month_day,
            });
        }
        let last = days_in_month(self.year, self.month);
        if month_day <= last {
            return Some(Date {
                year: self.year,
                month: self.month,
                month_day,
            });
        }
        let month_day = month_day - last;
        if self.month < 12 {
            return Some(Date {
                year: self.year,
                month: self.month + 1,
                month_day,
            });
        }
        let Some(year) = self.year.checked_add(1) else {
            return None;
        };
        Some(Date {
            year,
            month: 1,
            month_day,
        })
    }
}
