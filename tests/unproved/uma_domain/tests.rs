mod body;
mod buckets;
mod inboxes;
mod intervals;
mod sealing;
mod sharing;
mod trims;
mod working_set;
