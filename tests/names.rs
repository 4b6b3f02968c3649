//! Methods of a user's trait are called, whatever they are named: no call that crates.io's crate lacks is in scope.

use rustc_apfloat::ieee::*;
use rustc_apfloat::ppc::DoubleDouble;
use rustc_apfloat::*;

macro_rules! extension {
    ($($name:ident)*) => {
        trait FloatExt: Float {
            $(fn $name(self) -> (&'static str, Self);)*
        }

        impl<F: Float> FloatExt for F {
            $(fn $name(self) -> (&'static str, Self) {
                (stringify!($name), self)
            })*
        }

        fn each() {
            $(
                assert_eq!(Double::from_u128(2).value.$name().0, stringify!($name));
                assert_eq!(DoubleDouble::from_u128(2).value.$name().0, stringify!($name));
                assert_eq!(IeeeFloat::<IeeeFlags<HalfS>>::from_u128(2).value.$name().0, stringify!($name));
            )*
        }
    };
}

extension! {
    sqrt sqrt_r shortest exact_decimal rounded_decimal scale_b c_fmod_steps to_format from_format
    add_to sub_to mul_to div_to sqrt_to mul_add_to
    // Those of the crate itself.
    inner parts of pair plain written unpacked made significand with_sign are_normal answered
}

#[test]
fn a_trait_of_the_user_is_called() {
    each();
}
