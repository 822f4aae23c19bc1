mod ports;
mod ranges;
mod refusals;
mod threads;
mod told;
