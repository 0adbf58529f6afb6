//! Faults of our side, put in on purpose: `fault!(N, ..)` alters an answer of ours where the driver is built with the feature `faults` and
//! AWDL_FAULT is N. Without the feature nothing of it is in the program.

#[cfg(feature = "faults")]
pub static FAULT: std::sync::atomic::AtomicUsize = std::sync::atomic::AtomicUsize::new(0);

macro_rules! fault {
    ($number:literal, $alter:expr) => {
        #[cfg(feature = "faults")]
        if crate::faults::FAULT.load(std::sync::atomic::Ordering::Relaxed) == $number {
            $alter;
        }
    };
}
pub(crate) use fault;

#[cfg(feature = "faults")]
pub fn put_in() {
    let number = std::env::var("AWDL_FAULT").ok().and_then(|number| number.parse().ok());
    FAULT.store(number.unwrap_or(0), std::sync::atomic::Ordering::Relaxed);
}
#[cfg(not(feature = "faults"))]
pub fn put_in() {}
