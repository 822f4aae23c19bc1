use super::*;

mod entries_racing;
mod racing;
mod recovering;
mod refusing;
mod setting;
mod telling;
mod texts;
mod worker;
mod working;
