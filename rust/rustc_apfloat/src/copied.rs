//! Types that are copied whatever their parameter is. `derive` would ask that the parameter is copied too.

macro_rules! copied {
    ($($name:ident<$of:ident $(: $bound:ident)?>)*) => {$(
        impl<$of $(: $bound)?> Copy for $name<$of> {}

        impl<$of $(: $bound)?> Clone for $name<$of> {
            #[inline]
            fn clone(&self) -> Self {
                *self
            }
        }
    )*};
}
