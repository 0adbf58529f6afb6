/// Left out by 01; the name alone is needed.
#[derive(Clone, Copy, Debug, PartialEq, Eq)]
pub struct AWDLStr<'a>(pub &'a str);
