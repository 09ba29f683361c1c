//! The blocks' fields as the library gives them out of a board's table; the first seven it also takes and gives at the optimiser's end.

/// Block 1.
#[repr(C)]
#[derive(Clone, Copy, Default, PartialEq, Debug)]
pub struct Mov {
    pub speed: u32,
    pub u_speed: u8,
    pub accel: u16,
    pub decel: u16,
    pub antiplay_speed: u32,
    pub u_antiplay_speed: u8,
}

/// Block 2.
#[repr(C)]
#[derive(Clone, Copy, Default, PartialEq, Debug)]
pub struct Eng {
    pub nom_voltage: u16,
    pub nom_current: u16,
    pub nom_speed: u32,
    pub u_nom_speed: u8,
    pub engine_flags: u16,
    pub antiplay: i16,
    pub microstep_mode: u8,
    pub steps_per_rev: u16,
}

/// Block 3.
#[repr(C)]
#[derive(Clone, Copy, Default, PartialEq, Debug)]
pub struct Pwr {
    pub hold_current: u8,
    pub curr_reduct_delay: u16,
    pub power_off_delay: u16,
    pub current_set_time: u16,
    pub power_flags: u8,
}

/// Block 4.
#[repr(C)]
#[derive(Clone, Copy, Default, PartialEq, Debug)]
pub struct Eds {
    pub border_flags: u8,
    pub ender_flags: u8,
    pub left_border: i32,
    pub u_left_border: i16,
    pub right_border: i32,
    pub u_right_border: i16,
}

/// Block 5.
#[repr(C)]
#[derive(Clone, Copy, Default, PartialEq, Debug)]
pub struct Hom {
    pub fast_home: u32,
    pub u_fast_home: u8,
    pub slow_home: u32,
    pub u_slow_home: u8,
    pub home_delta: i32,
    pub u_home_delta: i16,
    pub home_flags: u16,
}

/// Block 6.
#[repr(C)]
#[derive(Clone, Copy, Default, PartialEq, Debug)]
pub struct Brk {
    pub t1: u16,
    pub t2: u16,
    pub t3: u16,
    pub t4: u16,
    pub brake_flags: u8,
}

/// Block 7.
#[repr(C)]
#[derive(Clone, Copy, Default, Debug)]
pub struct Pid {
    pub kp_u: u16,
    pub ki_u: u16,
    pub kd_u: u16,
    pub kpf: f32,
    pub kif: f32,
    pub kdf: f32,
}

/// Equal when the very bits are.
impl PartialEq for Pid {
    fn eq(&self, other: &Pid) -> bool {
        let bits = |p: &Pid| (p.kp_u, p.ki_u, p.kd_u, p.kpf.to_bits(), p.kif.to_bits(), p.kdf.to_bits());
        bits(self) == bits(other)
    }
}

/// Block 11. Each element of an array is a field of its own.
#[repr(C)]
#[derive(Clone, Copy, Default, PartialEq, Debug)]
pub struct Ctl {
    pub max_speed: [u32; 10],
    pub u_max_speed: [u8; 10],
    pub timeout: [u16; 9],
    pub max_click_time: u16,
    pub flags: u16,
    pub delta_position: i32,
    pub u_delta_position: i16,
}

/// Block 12.
#[repr(C)]
#[derive(Clone, Copy, Default, PartialEq, Debug)]
pub struct Joy {
    pub joy_low_end: u16,
    pub joy_center: u16,
    pub joy_high_end: u16,
    pub exp_factor: u8,
    pub dead_zone: u8,
    pub joy_flags: u8,
}

macro_rules! views {
    ($($block:ident $view:ident $name:literal;)*) => {
        extern "C" {
            $(
                #[link_name = $name]
                fn $view(table: *const u8, table_len: usize) -> $block;
            )*
        }

        $(impl $block {
            /// The block in a board's table. Nothing is judged; zeros stand behind the end of a table that is shorter.
            pub fn of(table: &[u8]) -> $block {
                // SAFETY: the table is live and of this length; the library does not keep it. The struct is the library's, field for field.
                unsafe { $view(table.as_ptr(), table.len()) }
            }
        })*
    };
}

// A library whose board is laid out in another way has another number in these names, and does not link.
views! {
    Mov rivertosku_mov "rivertosku_mov_4";
    Eng rivertosku_eng "rivertosku_eng_4";
    Pwr rivertosku_pwr "rivertosku_pwr_4";
    Eds rivertosku_eds "rivertosku_eds_4";
    Hom rivertosku_hom "rivertosku_hom_4";
    Brk rivertosku_brk "rivertosku_brk_4";
    Pid rivertosku_pid "rivertosku_pid_4";
    Ctl rivertosku_ctl "rivertosku_ctl_4";
    Joy rivertosku_joy "rivertosku_joy_4";
}

#[cfg(test)]
mod tests {
    use super::*;
    use std::mem::size_of;

    /// Each block in a table of which every byte tells its place, or its place less 256, whole and cut, and in none.
    #[test]
    fn blocks_of_a_table() {
        let table: Vec<u8> = (0..277).map(|place: u16| place as u8).collect();
        assert_eq!(
            Mov::of(&table),
            Mov { speed: 0x03020100, u_speed: 4, accel: 0x0605, decel: 0x0807, antiplay_speed: 0x0C0B0A09, u_antiplay_speed: 13 }
        );
        assert_eq!((Eng::of(&table).nom_voltage, Eng::of(&table).antiplay, Eng::of(&table).steps_per_rev), (0x1918, 0x2423, 0x2726));
        assert_eq!(
            Pwr::of(&table),
            Pwr { hold_current: 52, curr_reduct_delay: 0x3635, power_off_delay: 0x3837, current_set_time: 0x3A39, power_flags: 59 }
        );
        assert_eq!((Eds::of(&table).border_flags, Eds::of(&table).u_right_border), (66, 0x4F4E));
        assert_eq!((Hom::of(&table).fast_home, Hom::of(&table).home_flags), (0x59585756, 0x6766));
        assert_eq!(Brk::of(&table), Brk { t1: 0x7271, t2: 0x7473, t3: 0x7675, t4: 0x7877, brake_flags: 121 });
        assert_eq!((Pid::of(&table).kp_u, Pid::of(&table).kdf.to_bits()), (0x8584, 0x95949392));
        let ctl = Ctl {
            max_speed: std::array::from_fn(|i| 0xB1B0AFAE + 0x04040404 * i as u32),
            u_max_speed: std::array::from_fn(|i| 214 + i as u8),
            timeout: std::array::from_fn(|i| 0xE1E0 + 0x0202 * i as u16),
            max_click_time: 0xF3F2,
            flags: 0xF5F4,
            delta_position: 0xF9F8F7F6_u32 as i32,
            u_delta_position: 0xFBFA_u16 as i16,
        };
        assert_eq!(Ctl::of(&table), ctl);
        assert_eq!(
            Joy::of(&table),
            Joy { joy_low_end: 0x0605, joy_center: 0x0807, joy_high_end: 0x0A09, exp_factor: 11, dead_zone: 12, joy_flags: 13 }
        );
        assert_eq!(Brk::of(&table[..116]), Brk { t1: 0x7271, t2: 0x73, ..Brk::default() });
        assert_eq!(Ctl::of(&table[..180]).max_speed, [0xB1B0AFAE, 0xB3B2, 0, 0, 0, 0, 0, 0, 0, 0]);
        assert_eq!((Mov::of(&[]), Pid::of(&table[..132])), (Mov::default(), Pid::default()));
        // SAFETY: as in `of`, but for the pointer under test: a null one is fine where the length is 0.
        assert_eq!(unsafe { rivertosku_hom(std::ptr::null(), 0) }, Hom::default());
    }

    /// The table above does not tell a place from the one 256 behind it. This one does: joy alone is read behind 255, and all of joy.
    #[test]
    fn blocks_behind_255() {
        let table: Vec<u8> = (0..277).map(|place: u16| (place >> 8) as u8).collect();
        assert_eq!((Mov::of(&table), Eng::of(&table), Pwr::of(&table)), (Mov::default(), Eng::default(), Pwr::default()));
        assert_eq!((Eds::of(&table), Hom::of(&table), Brk::of(&table)), (Eds::default(), Hom::default(), Brk::default()));
        assert_eq!((Pid::of(&table), Ctl::of(&table)), (Pid::default(), Ctl::default()));
        let ones = Joy { joy_low_end: 0x0101, joy_center: 0x0101, joy_high_end: 0x0101, exp_factor: 1, dead_zone: 1, joy_flags: 1 };
        assert_eq!(Joy::of(&table), ones);
    }

    /// The sizes that c/rivertosku.h asserts.
    #[test]
    fn sizes() {
        let sizes =
            [size_of::<Mov>(), size_of::<Eng>(), size_of::<Pwr>(), size_of::<Eds>(), size_of::<Hom>(), size_of::<Brk>(), size_of::<Pid>()];
        assert_eq!(sizes, [20, 20, 10, 20, 24, 10, 20]);
        assert_eq!([size_of::<Ctl>(), size_of::<Joy>()], [80, 10]);
    }
}
