mod body;
mod clock;
mod reuse;
