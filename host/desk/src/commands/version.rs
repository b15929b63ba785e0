//! `desk --version`, and whether the library is the one that the desk was built for.

use crate::fault::Fault;
use crate::output::Output;

/// The interface that this program was written for.
const INTERFACE: u32 = 3;

pub fn command(arguments: &[String]) -> Result<(), Fault> {
    if let Some(argument) = arguments.first() {
        return Err(Fault::bad(format!("{argument:?}: expected nothing after --version")));
    }
    let mut output = Output::new();
    output.line(&format!("desk {}, interface {}", env!("CARGO_PKG_VERSION"), bemulatsho::version()))?;
    output.flush()
}

/// A library of another interface answers in another way: nothing is done with it.
pub fn library_fits() -> Result<(), Fault> {
    match bemulatsho::version() {
        INTERFACE => Ok(()),
        other => {
            Err(Fault::bad(format!("the library has interface {other}: expected {INTERFACE}; build desk and library together (make desk)")))
        }
    }
}
