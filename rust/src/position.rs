//! Where the drive stands and how it is to travel, as the library takes and gives them: steps, microsteps and encoder counts, three
//! quantities that nothing adds to one another.

/// Whole steps.
#[repr(transparent)]
#[derive(Clone, Copy, Default, PartialEq, Eq, Debug)]
pub struct Steps(pub i32);

/// -255..255 on a sound board and in an order.
#[repr(transparent)]
#[derive(Clone, Copy, Default, PartialEq, Eq, Debug)]
pub struct Microsteps(pub i16);

/// Encoder counts.
#[repr(transparent)]
#[derive(Clone, Copy, Default, PartialEq, Eq, Debug)]
pub struct Count(pub i64);

/// The place that a move goes to, or the way that a movr goes.
#[repr(C)]
#[derive(Clone, Copy, Default, PartialEq, Eq, Debug)]
pub struct Travel {
    pub steps: Steps,
    pub microsteps: Microsteps,
}

#[repr(C)]
#[derive(Clone, Copy, Default, PartialEq, Eq, Debug)]
pub struct Position {
    pub steps: Steps,
    pub microsteps: Microsteps,
    pub count: Count,
}

#[cfg(test)]
mod tests {
    use super::*;
    use std::mem::size_of;

    /// The sizes that c/rivertosku.h asserts.
    #[test]
    fn sizes() {
        assert_eq!([size_of::<Travel>(), size_of::<Position>()], [8, 16]);
    }
}
