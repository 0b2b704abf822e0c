//! Ask 13, the taking side of a posted descriptor.

use crate::bits::{bit, put};
use crate::image::{bad_windows, place, whole, Image, Window};
use crate::registers::{outside_the_list, Registers};

/// What a take hands out.
#[derive(Clone, Copy, Debug, PartialEq, Eq)]
pub enum Take {
    /// The vector whose request bit was the highest; it was cleared.
    Vector(u8),
    /// There was no request bit.
    None,
    /// The unit says no by house number: 1 or 5.
    Refused(u8),
}

/// Takes from the descriptor at a host address of the old image, one window
/// from 0.
pub fn take(registers: &Registers, image: &mut [u8], descriptor_address: u64) -> Take {
    let windows = whole(image);
    take_in(registers, &windows, image, descriptor_address)
}

/// The same over windows.
pub fn take_in(
    registers: &Registers,
    windows: &[Window],
    run: &mut [u8],
    descriptor_address: u64,
) -> Take {
    if outside_the_list(registers) || bad_windows(Image { windows, run }) {
        return Take::Refused(1);
    }
    // A descriptor not 64-aligned or not whole in the image is house number 5,
    // checked after 1, image as it came.
    if descriptor_address / 64 * 64 != descriptor_address {
        return Take::Refused(5);
    }
    let Some(start) = place(windows, u128::from(descriptor_address), 64) else {
        return Take::Refused(5);
    };
    let descriptor = &mut run[start..start + 64];
    // A take clears ON (256) either way
    put(descriptor, 256, 256, 0);
    // and hands out the highest request bit (0 to 255), clearing it,
    for vector in (0..=255).rev() {
        if bit(descriptor, vector) {
            put(descriptor, vector, vector, 0);
            return Take::Vector(vector as u8);
        }
    }
    // or says there is none.
    Take::None
}
