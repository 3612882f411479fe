//! Gives access to the verified cursors, with the feature `more`. A parser of your own that was proved in Rattle, and
//! whose contracts `tools/erase` removed, takes them.
use crate::{Octets, OctetsMut};

/// The methods and conversions that both cursors have.
macro_rules! both {
    ($cursor:ident) => {
        impl<'a> $cursor<'a> {
            /// Returns the verified cursor inside this one. Pass it to a parser that was proved in Rattle and erased,
            /// since the functions of such a parser take the cursors of [`verified`](crate::more::verified). Whatever
            /// they do to that cursor, they do to this one.
            ///
            /// ```
            /// # use octets::{*, more::verified};
            /// /// A parser, as `tools/erase` writes it.
            #[doc = concat!("fn read_ports(cursor: &mut verified::", stringify!($cursor), "<'_>) -> Result<(u16, u16)> {")]
            ///     Ok((cursor.get_u16()?, cursor.get_u16()?))
            /// }
            ///
            /// let mut bytes = [0, 80, 31, 144, 9];
            #[doc = concat!("let mut cursor = ", stringify!($cursor), "::with_slice(&mut bytes);")]
            /// assert_eq!(read_ports(cursor.verified())?, (80, 8080));
            /// assert_eq!(cursor.off(), 4);
            /// # Ok::<(), BufferTooShortError>(())
            /// ```
            #[inline]
            pub fn verified(&mut self) -> &mut octets_verified::$cursor<'a> {
                &mut self.0
            }
        }

        impl<'a> From<octets_verified::$cursor<'a>> for $cursor<'a> {
            #[inline]
            fn from(cursor: octets_verified::$cursor<'a>) -> Self {
                Self(cursor)
            }
        }

        impl<'a> From<$cursor<'a>> for octets_verified::$cursor<'a> {
            #[inline]
            fn from(cursor: $cursor<'a>) -> Self {
                cursor.0
            }
        }
    };
}
both!(Octets);
both!(OctetsMut);
