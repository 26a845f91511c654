//! Cases that ask for the verdict of one image.

use crate::blocks::{image_of, Form};
use crate::generate::damaged_images::{damaged_image, sound_records};
use crate::generate::random::Random;
use crate::stream::{Call, Case};

/// A verdict on an image of this form, accepted about every second time.
pub fn draw(random: &mut Random, form: Form) -> Case {
    let image = match random.one_in(2) {
        true => damaged_image(random, form),
        false => image_of(form, &sound_records(random, form)),
    };
    let call = match form {
        Form::Table => Call::TableVerdict,
        Form::Patch => Call::PatchVerdict,
    };
    Case::lending(call, image)
}
