mod calls;
mod fetching;
mod giving;
mod marks;
mod standing;
