//! What is of Rust alone: sets of flags, constants, operators, and conditions that panic.

use rustc_apfloat::ieee::*;
use rustc_apfloat::machines::{Contradiction, Flush, Machine, NanChoice};
use rustc_apfloat::more::{FloatMore, IeeeMore, PairMore};
use rustc_apfloat::ppc::{DoubleDouble, FallbackS};
use rustc_apfloat::{Category, ExpInt, Float, IEK_INF, IEK_NAN, IEK_ZERO, Round, Status, StatusAnd, unpack};
use std::panic::{UnwindSafe, catch_unwind};

#[test]
fn sets_of_flags() {
    const BOTH: Status = Status::OVERFLOW.union(Status::INEXACT);
    assert_eq!(BOTH.bits(), 0x14);
    assert_eq!(
        format!("{:?} {:?} {:?}", Status::OK, BOTH, Status::from_bits_retain(0x28)),
        "Status(0x0) Status(OVERFLOW | INEXACT) Status(UNDERFLOW | 0x20)"
    );
    assert_eq!(
        format!("{:#?} {:#?}", Status::OK, BOTH.and(1)),
        "Status(\n    0x0,\n) StatusAnd {\n    status: Status(\n        OVERFLOW | INEXACT,\n    ),\n    value: 1,\n}"
    );
    assert_eq!(Status::from_bits(0x20), None);
    assert_eq!(Status::from_bits(0x1f), Some(Status::all()));
    assert_eq!(Status::from_bits_truncate(0xff), Status::all());
    assert_eq!(
        (Status::from_name("OK"), Status::from_name("UNDERFLOW"), Status::from_name("under")),
        (Some(Status::OK), Some(Status::UNDERFLOW), None)
    );
    assert!(BOTH.contains(Status::INEXACT) && !BOTH.contains(Status::all()) && BOTH.intersects(Status::all()));
    assert!(Status::empty().is_empty() && Status::all().is_all() && !BOTH.is_all());
    assert_eq!((BOTH | Status::UNDERFLOW) - Status::INEXACT, Status::OVERFLOW | Status::UNDERFLOW);
    assert_eq!((BOTH ^ Status::INEXACT, BOTH & Status::INEXACT), (Status::OVERFLOW, Status::INEXACT));
    assert_eq!(!BOTH, Status::INVALID_OP | Status::DIV_BY_ZERO | Status::UNDERFLOW);
    let mut set = Status::OK;
    set.insert(BOTH);
    set.remove(Status::OVERFLOW);
    set.toggle(Status::INVALID_OP);
    set.set(Status::UNDERFLOW, true);
    set.set(Status::INEXACT, false);
    set |= Status::DIV_BY_ZERO;
    assert_eq!(set, Status::INVALID_OP | Status::UNDERFLOW | Status::DIV_BY_ZERO);
    assert_eq!(set.iter().collect::<Status>(), set);
    let odd = Status::from_bits_retain(0x31);
    assert_eq!(odd.into_iter().map(|set| set.bits()).collect::<Vec<_>>(), [0x01, 0x10, 0x20]);
    assert_eq!(Status::OK.iter().count(), 0);
    assert_eq!(set.iter_names().map(|(name, _)| name).collect::<Vec<_>>(), ["INVALID_OP", "DIV_BY_ZERO", "UNDERFLOW"]);
    assert_eq!(format!("{BOTH:#b} {BOTH:x}"), "0b10100 14");
}

#[test]
fn answers() {
    let mut status = Status::UNDERFLOW;
    let value = unpack!(status |=, Half::from_u128(2049));
    assert_eq!((status, value.to_bits()), (Status::UNDERFLOW | Status::INEXACT, 0x6800));
    let value = unpack!(status =, Half::from_u128(1).map(|x| -x));
    assert_eq!((status, value.to_bits()), (Status::OK, 0xbc00));
    assert_eq!(Status::INEXACT.and(7), StatusAnd { status: Status::INEXACT, value: 7 });
    assert_eq!(Half::from_u128(3).unwrap().to_bits(), 0x4200);
}

fn constants<F: Float>() {
    assert!(F::ZERO.is_pos_zero() && F::default().is_pos_zero());
    assert!(F::NAN.bitwise_eq(F::qnan(None)));
    assert!(F::SMALLEST.is_smallest() && !F::SMALLEST.is_negative());
    assert!(F::ZERO.next_up().value.is_smallest() || F::BITS == 128);
    assert_eq!(F::INFINITY.is_nan(), F::largest().next_up().value.is_nan());
    assert_eq!((F::ZERO.ilogb(), F::NAN.ilogb()), (IEK_ZERO, IEK_NAN));
    if F::INFINITY.is_infinite() {
        assert_eq!(F::INFINITY.ilogb(), IEK_INF);
    }
    for constant in [F::ZERO, F::NAN, F::SMALLEST, F::INFINITY] {
        assert!(F::from_bits(constant.to_bits()).bitwise_eq(constant));
    }
}

#[test]
fn constants_are_the_values_of_calls() {
    macro_rules! constants_of {
        ($($type:ty)*) => { $(constants::<$type>();)* };
    }
    constants_of! { Half Single Double Quad BFloat X87DoubleExtended FloatTF32 DoubleDouble }
    constants_of! { Float8E5M2 Float8E4M3FN Float8E4M3FNUZ Float8E4M3 Float8E5M2FNUZ Float8E4M3B11FNUZ }
    constants_of! { IeeeFloat<IeeeFlags<TinyBefore<DoubleS>>> }
    const LIMITS: (usize, usize, ExpInt, ExpInt) = (Double::BITS, Double::PRECISION, Double::MAX_EXP, Double::MIN_EXP);
    assert_eq!(LIMITS, (64, 53, 1023, -1022));
    assert_eq!((DoubleDouble::BITS, DoubleDouble::PRECISION, DoubleDouble::MIN_EXP), (128, 106, -969));
}

/// Whether a call panics.
fn panics<T>(call: impl FnOnce() -> T + UnwindSafe) -> bool {
    std::panic::set_hook(Box::new(|_| {}));
    catch_unwind(call).is_err()
}

#[test]
fn conditions_panic() {
    let one = Double::from_u128(1).value;
    assert!(panics(|| Half::from_u128(2049).unwrap()));
    assert_eq!(one.to_u128(1).value, 1);
    assert!(panics(move || one.cmp_abs_normal(Double::ZERO)));
    assert!(panics(move || Double::NAN.cmp_abs_normal(one)));
    let pair = DoubleDouble::from_u128(1).value;
    assert!(panics(move || pair.cmp_abs_normal(pair)));
    type Wide = IeeeFloat<FallbackS<Double>>;
    assert!(panics(|| Wide::from_bits(0)));
    assert!(panics(|| Wide::ZERO.to_bits()));
    assert!(panics(move || one.rounded_decimal(37, Round::TowardZero)));
}

#[test]
fn pairs_and_their_wide_format() {
    type Wide = IeeeFloat<FallbackS<Double>>;
    let third = DoubleDouble::from_u128(1).value.div_r(DoubleDouble::from_u128(3).value, Round::NearestTiesToEven);
    assert_eq!(third.status, Status::INEXACT);
    assert!(DoubleDouble::from(Wide::from(third.value)).bitwise_eq(third.value));
    assert_eq!(third.value.to_string(), "0.333333333333333333333333333333335");
    // 2^53 + 1/2, squared, plus one quarter: rounded once, and then split.
    let x = DoubleDouble::from_str_r("9007199254740992.5", Round::NearestTiesToEven).unwrap().unwrap();
    let quarter = DoubleDouble::from_str_r("0.25", Round::NearestTiesToEven).unwrap().unwrap();
    assert_eq!(x.mul_add(x, quarter).status, Status::INEXACT);
    assert_eq!(x.mul_add(x, -quarter).unwrap().to_string(), "81129638414606690702988259885056");
    assert!((-x + x).value.is_pos_zero());
    assert_eq!(Category::Normal, x.category());
}

/// Rows of `evidence/pair_operations.py`.
#[test]
fn pairs_to_and_from_formats() {
    // Just above halfway from 1 to the next quad. It is not a value of 106 digits, so no decimal is read as it.
    let above = DoubleDouble::from_bits(0x38e0_0000_0000_0001_3ff0_0000_0000_0000);
    let next = above.to_format::<QuadS>(Round::NearestTiesToEven);
    assert_eq!(next.map(Float::to_bits), Status::INEXACT.and(0x3fff << 112 | 1));
    assert_eq!(above.shortest(), None);
    let pair = DoubleDouble::from_format(next.value, Round::TowardPositive);
    assert_eq!(pair.map(Float::to_bits), Status::INEXACT.and(0x3960_0000_0000_0000_3ff0_0000_0000_0000));
    assert_eq!(pair.value.shortest().unwrap().to_string(), "1.00000000000000000000000000000002");
    // What a product loses when it is rounded, exactly.
    let x = DoubleDouble::from_bits(0x4170_ce60_fb71_195b);
    let y = DoubleDouble::from_bits(0x3bbf_3ea6_ee8e_037c_bf25_c357_afde_485a);
    let product = DoubleDouble::from_bits(0x3d38_2f88_3fb9_59f8_40a6_dc0e_a2e6_fb22);
    let lost = x.mul_add_r(y, product, Round::TowardNegative);
    assert_eq!(lost.map(Float::to_bits), Status::OK.and(0x39fd_333c_c88e_5914));
}

/// What `docs/RUST.md` shows of what the crate `rustc_apfloat` does not have.
#[test]
fn beyond_the_crate() {
    let tenth = Double::from_str_r("0.1", Round::NearestTiesToEven).unwrap().value;
    assert_eq!(tenth.shortest().unwrap().to_string(), "0.1");
    assert_eq!(tenth.rounded_decimal(20, Round::TowardZero).unwrap().0.to_string(), "0.10000000000000000555");
    assert_eq!(tenth.exact_decimal(), None);
    let two = Double::from_u128(2).value;
    assert_eq!(two.sqrt().value.to_string(), "1.4142135623730951");
    assert_eq!(DoubleDouble::from_u128(1 << 106).value.sqrt().map(Float::to_bits), Status::OK.and(0x4340 << 48));

    // Past the largest value, toward zero: that value, with the flags of a processor.
    type Machine = IeeeFloat<IeeeFlags<SingleS>>;
    let past = Machine::largest().add_r(Machine::largest(), Round::TowardZero);
    assert_eq!((past.value.is_largest(), past.status), (true, Status::OVERFLOW | Status::INEXACT));
}

/// A machine that says of NaNs both that they are always dropped and that one is kept contradicts itself.
#[test]
fn contradictions() {
    assert_eq!(Machine::RISC_V.checked(), Ok(Machine::RISC_V));
    let composed = Machine { nan_choice: NanChoice::AlwaysDefault, ..Machine::ARM };
    assert_eq!(composed.checked(), Err(Contradiction::SignalingAddendKept));
    let kept = Machine { drops_quiet_addend: false, ..Machine::WEBASSEMBLY };
    assert_eq!(kept.checked(), Err(Contradiction::QuietAddendKept));
}

/// Machines have the names of variants too, and their choices are calls.
#[test]
fn names_of_before() {
    assert_eq!((Machine::RiscV, Machine::S390x), (Machine::RISC_V, Machine::S390X));
    assert_eq!((Machine::Arm.flush(), Machine::Power.tiny_before_rounding()), (Some(Flush::Arm), true));
}
