//! The library reads and writes nothing outside what was lent: what it is given ends at a page that cannot be touched, and then begins
//! behind one. A stray access ends the test with a signal.

mod chips;
mod damage;
mod events;
mod pages;
mod presets;
mod texts;
