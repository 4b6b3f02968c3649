//! Pairs of other types than `Double`. The rows of pairs of singles are computed by exact fractions: of sums and
//! products each step; of all else the exact result of the exact sums of the parts, rounded once to 48 digits and
//! split.

use rustc_apfloat::Round::{self, *};
use rustc_apfloat::ieee::*;
use rustc_apfloat::ppc::{DoubleFloat, FallbackExtendedS, FallbackS};
use rustc_apfloat::{Float, FloatConvert, Status, StatusAnd};

type Pair = DoubleFloat<Single>;

#[derive(Debug)]
enum Operation {
    Add,
    Multiply,
    Divide,
    Fuse,
    Modulo,
}

use Operation::*;

/// An operation, its operands, a mode, the result, and whether it is inexact.
type Row = (Operation, u128, u128, u128, Round, u128, bool);

#[test]
fn rows_of_singles() {
    for row in ROWS {
        let (operation, x, y, z, round, result, is_inexact) = row;
        let [x, y, z] = [x, y, z].map(|bits| Pair::from_bits(*bits));
        let answer = match operation {
            Add => x.add_r(y, *round),
            Multiply => x.mul_r(y, *round),
            Divide => x.div_r(y, *round),
            Fuse => x.mul_add_r(y, z, *round),
            Modulo => x.c_fmod(y),
        };
        let status = if *is_inexact { Status::INEXACT } else { Status::OK };
        assert_eq!(answer.map(Pair::to_bits), status.and(*result), "{row:x?}");
    }
}

#[test]
fn calls_of_singles() {
    let pair = |text: &str| Pair::from_str_r(text, NearestTiesToEven).unwrap().value;
    let near = pair("16777216.5");
    assert_eq!(near.to_bits(), 0x3f00_0000_4b80_0000);
    assert_eq!((near.to_string(), format!("{:?}", near.category())), ("16777216.5".into(), "Normal".into()));
    assert_eq!(near.next_up().map(Pair::to_bits), Status::OK.and(0x3f00_0002_4b80_0000));
    assert_eq!(near.next_down().map(Pair::to_bits), Status::OK.and(0x3eff_fffc_4b80_0000));
    assert_eq!(near.round_to_integral(NearestTiesToEven).map(Pair::to_bits), Status::INEXACT.and(0x4b80_0000));
    assert_eq!(near.to_u128_r(32, TowardPositive, &mut true), Status::INEXACT.and(16_777_217));
    assert_eq!((-near).to_i128(32), Status::INEXACT.and(-16_777_216));
    assert_eq!(Pair::from_i128(-(1 << 40) - 1).map(Pair::to_bits), Status::OK.and(0xbf80_0000_d380_0000));
    assert!(Pair::ZERO < near && near < pair("16777216.75") && near == near && -near < Pair::ZERO);
    assert_eq!(near.cmp_abs_normal(pair("16777216.25")), std::cmp::Ordering::Greater);
    assert_eq!((near.ilogb(), near.is_integer(), pair("16777218").is_integer()), (24, false, true));
    assert_eq!(near.scalbn(1).to_string(), "33554433");
    let mut exponent = 0;
    assert_eq!((near.frexp(&mut exponent).to_bits(), exponent), (0x3280_0000_3f00_0000, 25));
    assert_eq!(pair("0.125").get_exact_inverse().map(Pair::to_bits), Some(0x4100_0000));
    assert_eq!(near.get_exact_inverse().map(Pair::to_bits), None);
    // 2^127 (2 - 2^-23), and below half of its last digit.
    assert_eq!(Pair::largest().to_bits(), 0x72ff_fffe_7f7f_ffff);
    assert!((Pair::largest() * Pair::largest()).value.is_pos_infinity());
    assert_eq!(Pair::smallest_normalized().to_bits(), 0x0c80_0000);
    let signaling: IeeeFloat<FallbackS<Single>> = Pair::snan(None).into();
    assert!(signaling.is_nan() && !signaling.is_signaling());
    let past: IeeeFloat<FallbackS<Single>> = IeeeFloat::largest();
    assert!(Pair::from(past).is_pos_infinity());
}

/// What a user of the crate `rustc_apfloat` writes of pairs of any type.
fn third<F>() -> StatusAnd<DoubleFloat<F>>
where
    F: FloatConvert<IeeeFloat<FallbackS<F>>> + FloatConvert<IeeeFloat<FallbackExtendedS<F>>>,
    IeeeFloat<FallbackExtendedS<F>>: FloatConvert<F>,
{
    let one = DoubleFloat::<F>::from_u128(1).value;
    one / DoubleFloat::from_u128(3).value
}

#[test]
fn pairs_of_any_type_that_fits() {
    // One third to twice the digits, its nearest part, and the rest.
    assert_eq!(third::<Single>().map(Float::to_bits), Status::INEXACT.and(0xb22a_aaaa_3eaa_aaab));
    assert_eq!(third::<BFloat>().map(Float::to_bits), Status::INEXACT.and(0xba2a_3eab));
    assert_eq!(third::<Float8E5M2>().map(Float::to_bits), Status::INEXACT.and(0x2635));
    assert_eq!(third::<Float8E4M3FN>().map(Float::to_bits), Status::INEXACT.and(0x852b));
    // The format of doubles by another name has the library's pairs.
    struct SameS;
    impl Semantics for SameS {
        const BITS: usize = 64;
        const EXP_BITS: usize = 11;
    }
    assert_eq!(third::<IeeeFloat<SameS>>().map(Float::to_bits), third::<Double>().map(Float::to_bits));
    // With the flags of IEEE 754 the values are the same, and the sums of the parts raise those flags.
    type Flagged = IeeeFloat<IeeeFlags<DoubleS>>;
    assert_eq!(third::<Flagged>().map(Float::to_bits), third::<Double>().map(Float::to_bits));
    fn twice_the_largest<F: Float>() -> (Status, u128) {
        let sum = F::largest().add_r(F::largest(), TowardZero);
        (sum.status, sum.value.to_bits())
    }
    let (status, bits) = twice_the_largest::<DoubleFloat<Double>>();
    assert_eq!(status, Status::INEXACT);
    assert_eq!(twice_the_largest::<DoubleFloat<Flagged>>(), (Status::OVERFLOW | Status::INEXACT, bits));
}

#[rustfmt::skip]
const ROWS: &[Row] = &[
    (Add, 0x3445aeee40a9748d, 0x2826ee2036e5bade, 0xad0fb980bcd7a8a1, NearestTiesToEven, 0xb402f55240a9749c, true),
    (Multiply, 0x3445aeee40a9748d, 0x2826ee2036e5bade, 0xad0fb980bcd7a8a1, NearestTiesToEven, 0x2af55918381810f4, true),
    (Divide, 0x3445aeee40a9748d, 0x2826ee2036e5bade, 0xad0fb980bcd7a8a1, NearestTiesToEven, 0x3bd67308493cd533, true),
    (Fuse, 0x3445aeee40a9748d, 0x2826ee2036e5bade, 0xad0fb980bcd7a8a1, NearestTiesToEven, 0x3071dfc6bcd75c99, true),
    (Modulo, 0x3445aeee40a9748d, 0x2826ee2036e5bade, 0xad0fb980bcd7a8a1, NearestTiesToEven, 0xa73b518035b24fb2, false),
    (Add, 0xaea3a17cbbc717ff, 0x3b047da6479d28da, 0xb62fe9b8c2fa4e08, TowardPositive, 0xbb84d92c479d28da, true),
    (Multiply, 0xaea3a17cbbc717ff, 0x3b047da6479d28da, 0xb62fe9b8c2fa4e08, TowardPositive, 0xb7f3d275c3f472f9, true),
    (Divide, 0xaea3a17cbbc717ff, 0x3b047da6479d28da, 0xb62fe9b8c2fa4e08, TowardPositive, 0xa63fcc60b3a22755, true),
    (Fuse, 0xaea3a17cbbc717ff, 0x3b047da6479d28da, 0xb62fe9b8c2fa4e08, TowardPositive, 0xb59cfac0c419833e, true),
    (Modulo, 0xaea3a17cbbc717ff, 0x3b047da6479d28da, 0xb62fe9b8c2fa4e08, TowardPositive, 0xaea3a17cbbc717ff, false),
    (Add, 0x30308acebcccb89e, 0x2dbb88c8ba078bc3, 0x3a33d6f246834778, TowardNegative, 0x30066710bcd0f4fc, true),
    (Multiply, 0x30308acebcccb89e, 0x2dbb88c8ba078bc3, 0x3a33d6f246834778, TowardNegative, 0x29562e103758ca3e, true),
    (Divide, 0x30308acebcccb89e, 0x2dbb88c8ba078bc3, 0x3a33d6f246834778, TowardNegative, 0xb59c979c424152fe, true),
    (Fuse, 0x30308acebcccb89e, 0x2dbb88c8ba078bc3, 0x3a33d6f246834778, TowardNegative, 0x3a373a1a46834778, true),
    (Modulo, 0x30308acebcccb89e, 0x2dbb88c8ba078bc3, 0x3a33d6f246834778, TowardNegative, 0xac425e00b9337cda, false),
    (Add, 0xb654b22e429b8e98, 0x2e5716d2ba8425ef, 0xb03b6584bcb36ce9, TowardZero, 0x365f70a9429b8e13, true),
    (Multiply, 0xb654b22e429b8e98, 0x2e5716d2ba8425ef, 0xb03b6584bcb36ce9, TowardZero, 0xb177639abda09925, true),
    (Divide, 0xb654b22e429b8e98, 0x2e5716d2ba8425ef, 0xb03b6584bcb36ce9, TowardZero, 0xbb73510ec796ac8c, true),
    (Fuse, 0xb654b22e429b8e98, 0x2e5716d2ba8425ef, 0xb03b6584bcb36ce9, TowardZero, 0x30b3860cbdcd7460, true),
    (Modulo, 0xb654b22e429b8e98, 0x2e5716d2ba8425ef, 0xb03b6584bcb36ce9, TowardZero, 0x2c5d902038ce1283, false),
    (Add, 0x2fdd1b883d2db9c7, 0x2ad79080b79e1b7f, 0x2dc403a8ba82a5a7, NearestTiesToAway, 0xb0a86ba53d2da604, true),
    (Multiply, 0x2fdd1b883d2db9c7, 0x2ad79080b79e1b7f, 0x2dc403a8ba82a5a7, NearestTiesToAway, 0xa734c970b55696a3, true),
    (Divide, 0x2fdd1b883d2db9c7, 0x2ad79080b79e1b7f, 0x2dc403a8ba82a5a7, NearestTiesToAway, 0xb80794d8c50ca4ea, true),
    (Fuse, 0x2fdd1b883d2db9c7, 0x2ad79080b79e1b7f, 0x2dc403a8ba82a5a7, NearestTiesToAway, 0x2e393f00ba82c07a, true),
    (Modulo, 0x2fdd1b883d2db9c7, 0x2ad79080b79e1b7f, 0x2dc403a8ba82a5a7, NearestTiesToAway, 0x28a2500036c24203, false),
    (Add, 0x2b555328387971ff, 0x2ab15152374e97d0, 0xac0ad480bb53db07, NearestTiesToEven, 0xac34810c38968bfa, true),
    (Multiply, 0x2b555328387971ff, 0x2ab15152374e97d0, 0xac0ad480bb53db07, NearestTiesToEven, 0xa3c514dc30494da9, true),
    (Divide, 0x2b555328387971ff, 0x2ab15152374e97d0, 0xac0ad480bb53db07, NearestTiesToEven, 0xb43a0d80409a8cdc, true),
    (Fuse, 0x2b555328387971ff, 0x2ab15152374e97d0, 0xac0ad480bb53db07, NearestTiesToEven, 0x2e0c2d40bb53db04, true),
    (Modulo, 0x2b555328387971ff, 0x2ab15152374e97d0, 0xac0ad480bb53db07, NearestTiesToEven, 0x2ae56108372b68bb, false),
    (Add, 0x2c77c8d839399347, 0x2d139936b9d2990e, 0xb5ebe07ac2717f98, TowardPositive, 0xac39d250b96b9ed4, true),
    (Multiply, 0x2c77c8d839399347, 0x2d139936b9d2990e, 0xb5ebe07ac2717f98, TowardPositive, 0xa74de694b398a9c3, true),
    (Divide, 0x2c77c8d839399347, 0x2d139936b9d2990e, 0xb5ebe07ac2717f98, TowardPositive, 0xb2078990bee19539, true),
    (Fuse, 0x2c77c8d839399347, 0x2d139936b9d2990e, 0xb5ebe07ac2717f98, TowardPositive, 0xb5f56b16c2717f98, true),
    (Modulo, 0x2c77c8d839399347, 0x2d139936b9d2990e, 0xb5ebe07ac2717f98, TowardPositive, 0x2c77c8d839399347, false),
    (Add, 0xacc4e294b940b54b, 0x3644c1be42ec1be2, 0x3ba0e5424876dc4c, TowardNegative, 0x36176ee442ec1bca, true),
    (Multiply, 0xacc4e294b940b54b, 0x3644c1be42ec1be2, 0x3ba0e5424876dc4c, TowardNegative, 0x30f8314dbcb1bc20, true),
    (Divide, 0xacc4e294b940b54b, 0x3644c1be42ec1be2, 0x3ba0e5424876dc4c, TowardNegative, 0xa7c59490b5d0f165, true),
    (Fuse, 0xacc4e294b940b54b, 0x3644c1be42ec1be2, 0x3ba0e5424876dc4c, TowardNegative, 0xba982cf04876dc4b, true),
    (Modulo, 0xacc4e294b940b54b, 0x3644c1be42ec1be2, 0x3ba0e5424876dc4c, TowardNegative, 0xacc4e294b940b54b, false),
    (Add, 0x39dfcb8c466bdaad, 0xaf953c1ebc7a5672, 0x36a0f3e044477db0, TowardZero, 0x3a4a7ea1466bda9d, true),
    (Multiply, 0x39dfcb8c466bdaad, 0xaf953c1ebc7a5672, 0x36a0f3e044477db0, TowardZero, 0xb606a828c366a332, true),
    (Divide, 0x39dfcb8c466bdaad, 0xaf953c1ebc7a5672, 0x36a0f3e044477db0, TowardZero, 0x3c965d62c971305e, true),
    (Fuse, 0x39dfcb8c466bdaad, 0xaf953c1ebc7a5672, 0x36a0f3e044477db0, TowardZero, 0xb7e8980e440dd4e4, true),
    (Modulo, 0x39dfcb8c466bdaad, 0xaf953c1ebc7a5672, 0x36a0f3e044477db0, TowardZero, 0x2f9d996a3c567354, false),
    (Add, 0x3156c050be513a63, 0x2a514f34b6d460b0, 0xb6e316a0c4fa7453, NearestTiesToAway, 0x31e8a1cbbe513c0c, true),
    (Multiply, 0x3156c050be513a63, 0x2a514f34b6d460b0, 0xb6e316a0c4fa7453, NearestTiesToAway, 0x28dcc51435ad935f, true),
    (Divide, 0x3156c050be513a63, 0x2a514f34b6d460b0, 0xb6e316a0c4fa7453, NearestTiesToAway, 0x3900cac846fc3416, true),
    (Fuse, 0x3156c050be513a63, 0x2a514f34b6d460b0, 0xb6e316a0c4fa7453, NearestTiesToAway, 0xb6b7b1d0c4fa7453, true),
    (Modulo, 0x3156c050be513a63, 0x2a514f34b6d460b0, 0xb6e316a0c4fa7453, NearestTiesToAway, 0xa81a3480b4926d51, false),
    (Add, 0xae9b9aa43ba184f1, 0xb33912284069a7cf, 0xba3089fc46d41490, NearestTiesToEven, 0x339450054069f891, true),
    (Multiply, 0xae9b9aa43ba184f1, 0xb33912284069a7cf, 0xba3089fc46d41490, NearestTiesToEven, 0x3058069c3c936bdf, true),
    (Divide, 0xae9b9aa43ba184f1, 0xb33912284069a7cf, 0xba3089fc46d41490, NearestTiesToEven, 0xac2b93003ab0f725, true),
    (Fuse, 0xae9b9aa43ba184f1, 0xb33912284069a7cf, 0xba3089fc46d41490, NearestTiesToEven, 0xb9861c1c46d41499, true),
    (Modulo, 0xae9b9aa43ba184f1, 0xb33912284069a7cf, 0xba3089fc46d41490, NearestTiesToEven, 0xae9b9aa43ba184f1, false),
    (Add, 0xb2b12448bf00c8ed, 0xb2d60158bfd93224, 0xa9abdce0387c40bd, TowardPositive, 0xb3e1c968c00ccb4d, true),
    (Multiply, 0xb2b12448bf00c8ed, 0xb2d60158bfd93224, 0xa9abdce0387c40bd, TowardPositive, 0xb334ca923f5a8716, true),
    (Divide, 0xb2b12448bf00c8ed, 0xb2d60158bfd93224, 0xa9abdce0387c40bd, TowardPositive, 0xb1c5c2cc3e97cb25, true),
    (Fuse, 0xb2b12448bf00c8ed, 0xb2d60158bfd93224, 0xa9abdce0387c40bd, TowardPositive, 0x329c52b03f5a8b06, true),
    (Modulo, 0xb2b12448bf00c8ed, 0xb2d60158bfd93224, 0xa9abdce0387c40bd, TowardPositive, 0xb2b12448bf00c8ed, false),
    (Add, 0x35d510cc42ef6dc5, 0xacf54f583928ecd5, 0xb4cee8c441eafc69, TowardNegative, 0x3625bd8742ef6dda, true),
    (Multiply, 0x35d510cc42ef6dc5, 0xacf54f583928ecd5, 0xb4cee8c441eafc69, TowardNegative, 0x3040bfa03c9dfd89, true),
    (Divide, 0x35d510cc42ef6dc5, 0xacf54f583928ecd5, 0xb4cee8c441eafc69, TowardNegative, 0x3cabe55e49356c43, true),
    (Fuse, 0x35d510cc42ef6dc5, 0xacf54f583928ecd5, 0xb4cee8c441eafc69, TowardNegative, 0x34ba779841eb23e8, true),
    (Modulo, 0x35d510cc42ef6dc5, 0xacf54f583928ecd5, 0xb4cee8c441eafc69, TowardNegative, 0xaafb0a00380cdf51, false),
    (Add, 0x2b79cb80b98ddaf1, 0x29c44204b6933d68, 0x2b025c50384ba61e, TowardZero, 0xad976d61b99027e6, true),
    (Multiply, 0x2b79cb80b98ddaf1, 0x29c44204b6933d68, 0x2b025c50384ba61e, TowardZero, 0x237b17ca30a32d7e, true),
    (Divide, 0x2b79cb80b98ddaf1, 0x29c44204b6933d68, 0x2b025c50384ba61e, TowardZero, 0xb49ee5d84276a352, true),
    (Fuse, 0x2b79cb80b98ddaf1, 0x29c44204b6933d68, 0x2b025c50384ba61e, TowardZero, 0x2bf726a4384ba764, true),
    (Modulo, 0x2b79cb80b98ddaf1, 0x29c44204b6933d68, 0x2b025c50384ba61e, TowardZero, 0xa9f55ef4b6423503, false),
    (Add, 0xb718019243b1b991, 0x2d98e7683a333f83, 0x33ab3f58c17c75d7, NearestTiesToAway, 0x365f7d0443b1b9a7, true),
    (Multiply, 0xb718019243b1b991, 0x2d98e7683a333f83, 0x33ab3f58c17c75d7, NearestTiesToAway, 0xae7f95003e78e1b0, true),
    (Divide, 0xb718019243b1b991, 0x2d98e7683a333f83, 0x33ab3f58c17c75d7, NearestTiesToAway, 0xbb9fe36448fdd315, true),
    (Fuse, 0xb718019243b1b991, 0x2d98e7683a333f83, 0x33ab3f58c17c75d7, NearestTiesToAway, 0xb42a704cc1789250, true),
    (Modulo, 0xb718019243b1b991, 0x2d98e7683a333f83, 0x33ab3f58c17c75d7, NearestTiesToAway, 0xad282b8039e9838e, false),
    (Add, 0xacf695ac39112dac, 0x28860a2036b17262, 0xaa66d11836a91a1d, NearestTiesToEven, 0xacd60fa23916b93f, true),
    (Multiply, 0xacf695ac39112dac, 0x28860a2036b17262, 0xaa66d11836a91a1d, NearestTiesToEven, 0x222bc7c0304942e3, true),
    (Divide, 0xacf695ac39112dac, 0x28860a2036b17262, 0xaa66d11836a91a1d, NearestTiesToEven, 0xb45b87c041d17263, true),
    (Fuse, 0xacf695ac39112dac, 0x28860a2036b17262, 0xaa66d11836a91a1d, NearestTiesToEven, 0xaa38a06c36a92067, true),
    (Modulo, 0xacf695ac39112dac, 0x28860a2036b17262, 0xaa66d11836a91a1d, NearestTiesToEven, 0xa7cacd0035805def, false),
    (Add, 0xac828fa63978bfda, 0x3b38c33a47b0a102, 0x388df1e0c5cc334d, TowardPositive, 0xbb9bd86547b0a103, true),
    (Multiply, 0xac828fa63978bfda, 0x3b38c33a47b0a102, 0x388df1e0c5cc334d, TowardPositive, 0xb53359df41aba059, true),
    (Divide, 0xac828fa63978bfda, 0x3b38c33a47b0a102, 0x388df1e0c5cc334d, TowardPositive, 0x248de2e0313443b5, true),
    (Fuse, 0xac828fa63978bfda, 0x3b38c33a47b0a102, 0x388df1e0c5cc334d, TowardPositive, 0x39784598c5cb87ad, true),
    (Modulo, 0xac828fa63978bfda, 0x3b38c33a47b0a102, 0x388df1e0c5cc334d, TowardPositive, 0xac828fa63978bfda, false),
    (Add, 0xb7d2f6ce44183f4e, 0xacf9fda8390f1930, 0xa9ec1d6cb6986315, TowardNegative, 0x3852e95744183f4f, true),
    (Multiply, 0xb7d2f6ce44183f4e, 0xacf9fda8390f1930, 0xa9ec1d6cb6986315, TowardNegative, 0x318e60323daa34ad, true),
    (Divide, 0xb7d2f6ce44183f4e, 0xacf9fda8390f1930, 0xa9ec1d6cb6986315, TowardNegative, 0xbd813c804a882f00, true),
    (Fuse, 0xb7d2f6ce44183f4e, 0xacf9fda8390f1930, 0xa9ec1d6cb6986315, TowardNegative, 0x2e82d2003daa324c, true),
    (Modulo, 0xb7d2f6ce44183f4e, 0xacf9fda8390f1930, 0xa9ec1d6cb6986315, TowardNegative, 0x2ceeee583906117f, false),
    (Add, 0x2b68728cb808274a, 0x2d591ce4ba0ff497, 0x327754e83e84c90b, TowardZero, 0xadcc2df8ba18770b, true),
    (Multiply, 0x2b68728cb808274a, 0x2d591ce4ba0ff497, 0x327754e83e84c90b, TowardZero, 0x26b451ed3299200f, true),
    (Divide, 0x2b68728cb808274a, 0x2d591ce4ba0ff497, 0x327754e83e84c90b, TowardZero, 0xb087284a3d722025, true),
    (Fuse, 0x2b68728cb808274a, 0x2d591ce4ba0ff497, 0x327754e83e84c90b, TowardZero, 0x312654183e84c90c, true),
    (Modulo, 0x2b68728cb808274a, 0x2d591ce4ba0ff497, 0x327754e83e84c90b, TowardZero, 0x2b68728cb808274a, false),
    (Add, 0x2a99d804b70f3254, 0xac90db1c3952f6ec, 0x3ac50634477cf96a, NearestTiesToAway, 0x2cf8c264394a03c6, true),
    (Multiply, 0x2a99d804b70f3254, 0xac90db1c3952f6ec, 0x3ac50634477cf96a, NearestTiesToAway, 0x2403272cb0ec02ce, true),
    (Divide, 0x2a99d804b70f3254, 0xac90db1c3952f6ec, 0x3ac50634477cf96a, NearestTiesToAway, 0xb06d6cc0bd2dc3ee, true),
    (Fuse, 0x2a99d804b70f3254, 0xac90db1c3952f6ec, 0x3ac50634477cf96a, NearestTiesToAway, 0x3ac50626477cf96a, true),
    (Modulo, 0x2a99d804b70f3254, 0xac90db1c3952f6ec, 0x3ac50634477cf96a, NearestTiesToAway, 0x2a99d804b70f3254, false),
];
