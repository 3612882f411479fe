//! Tests of what the macros evaluate, and in which order, and of the names that they use: none is one of the caller's.
use rattle_host::alloc::Global;
use std::cell::RefCell;

/// Notes a number, and returns the value.
fn noted<T>(notes: &RefCell<Vec<u8>>, number: u8, value: T) -> T {
    notes.borrow_mut().push(number);
    value
}

/// What is written first is evaluated first, and each expression is evaluated once.
#[test]
fn what_is_first_is_evaluated_first() {
    let notes = RefCell::new(Vec::new());
    let (alloc, value) = (|number| noted(&notes, number, Global), |number| noted(&notes, number, number));
    let none: rattle_host::vec::Vec<u8> = rattle_host::vec![in alloc(1)].unwrap();
    assert_eq!((none.len(), notes.take()), (0, vec![1]));
    assert_eq!(*rattle_host::vec![in alloc(1); value(2); usize::from(value(3))].unwrap(), [2, 2, 2]);
    assert_eq!(notes.take(), [1, 2, 3]);
    assert_eq!(*rattle_host::vec![in alloc(1); value(2), value(3), value(4)].unwrap(), [2, 3, 4]);
    assert_eq!(notes.take(), [1, 2, 3, 4]);
    assert_eq!(&*rattle_host::format!(in alloc(1); "{1}{0}", value(2), value(3)).unwrap(), "32");
    assert_eq!(notes.take(), [1, 2, 3]);
    rattle_host::prove!(value(1) == 1 && value(2) == 2, "{}", value(3));
    rattle_host::prove_eq!(value(4) + 1, value(5), "{}", value(3));
    rattle_host::prove_ne!(value(6), value(7), "{}", value(3));
    assert_eq!(notes.take(), if cfg!(debug_assertions) { &[1, 2, 4, 5, 6, 7][..] } else { &[] });
}

/// The first value is compared with the second one, which may have another type. The second can't be compared with the first.
#[test]
fn the_first_value_is_compared_with_the_second() {
    struct First(u8);
    struct Second(u8);
    impl PartialEq<Second> for First {
        fn eq(&self, other: &Second) -> bool {
            self.0 == other.0
        }
    }
    rattle_host::prove_eq!(First(1), Second(1));
    rattle_host::prove_ne!(First(1), Second(2));
}

/// Items of a caller whose names are those of Rust's own items. The macros call Rust's.
#[allow(dead_code, unused_macros, non_camel_case_types)]
mod own {
    macro_rules! has {
        ($($name:ident)*) => { $(pub struct $name;)* };
    }
    has! { AllocError Box Err ExitCode From Global HostRuntime Into None Ok Option Result Some String ToString Vec }
    mod alloc {}
    mod core {}
    mod io {}
    mod process {}
    mod rt {}
    mod std {}
    mod string {}
    mod vec {}
    /// Without a rule, no call of these macros compiles.
    macro_rules! not_called {
        ($($name:ident)*) => { $(macro_rules! $name { (@) => {}; })* };
    }
    not_called! { assert assert_eq assert_ne debug_assert format format_args panic print println todo unimplemented vec write }

    /// The values that the macros make, as Rust's debug form prints them.
    pub fn made() -> [::std::string::String; 4] {
        let alloc = ::rattle_host::alloc::Global;
        let none: ::std::result::Result<::rattle_host::vec::Vec<u8>, _> = ::rattle_host::vec![in alloc];
        ::rattle_host::prove!(true);
        ::rattle_host::prove_eq!(1, 1);
        ::rattle_host::prove_ne!(1, 2);
        [
            ::std::format!("{none:?}"),
            ::std::format!("{:?}", ::rattle_host::vec![in alloc; 7; 2]),
            ::std::format!("{:?}", ::rattle_host::vec![in alloc; 1, 2]),
            ::std::format!("{:?}", ::rattle_host::format!(in alloc; "{}", 1)),
        ]
    }

    pub mod hosted {
        #[allow(unused_imports)]
        use super::*;
        use ::rattle_host::prelude::{Eprint as _, Print as _};

        /// Calls the macros that return, and says whether all prints succeed.
        pub fn printed(rt: super::super::hosted::Silent) -> bool {
            ::rattle_host::assert!(rt; true);
            ::rattle_host::assert_eq!(rt; 1, 1);
            ::rattle_host::assert_ne!(rt; 1, 2);
            let printed = [
                ::rattle_host::print!(rt; "{}", 1),
                ::rattle_host::println!(rt),
                ::rattle_host::println!(rt; "{}", 1),
                ::rattle_host::eprint!(rt; "{}", 1),
                ::rattle_host::eprintln!(rt),
                ::rattle_host::eprintln!(rt; "{}", 1),
            ];
            printed.iter().all(|done| done.is_ok())
        }

        /// Calls one of the macros that panic.
        pub fn panicked(rt: super::super::hosted::Silent, number: u8) {
            match number {
                0 => ::rattle_host::panic!(rt; "{}", 1),
                1 => ::rattle_host::todo!(rt; "{}", 1),
                2 => ::rattle_host::unimplemented!(rt; "{}", 1),
                3 => ::rattle_host::assert!(rt; 1 > 2, "{}", 1),
                4 => ::rattle_host::assert_eq!(rt; 1, 2, "{}", 1),
                _ => ::rattle_host::assert_ne!(rt; 1, 1, "{}", 1),
            }
        }
    }
}

#[test]
fn no_name_is_one_of_the_callers() {
    assert_eq!(own::made(), ["Ok([])", "Ok([7, 7])", "Ok([1, 2])", "Ok(\"1\")"]);
}

mod hosted {
    use super::*;
    use rattle_host::io;
    use rattle_host::prelude::{Eprint, Print};
    use std::fmt::Display;

    /// A runtime that prints nothing.
    #[derive(Clone, Copy)]
    pub struct Silent;

    impl Print for Silent {
        fn print(&self, _: impl Display) -> io::Result<()> {
            Ok(())
        }
        fn println(&self, _: impl Display) -> io::Result<()> {
            Ok(())
        }
    }

    impl Eprint for Silent {
        fn eprint(&self, _: impl Display) -> io::Result<()> {
            Ok(())
        }
        fn eprintln(&self, _: impl Display) -> io::Result<()> {
            Ok(())
        }
    }

    #[test]
    fn no_name_of_a_macro_with_a_runtime_is_one_of_the_callers() {
        assert!(own::hosted::printed(Silent));
        for number in 0..6 {
            assert!(std::panic::catch_unwind(|| own::hosted::panicked(Silent, number)).is_err(), "{number}");
        }
    }

    /// The runtime is evaluated before the values.
    #[test]
    fn the_runtime_is_evaluated_first() {
        let notes = RefCell::new(Vec::new());
        let (rt, value) = (|number| noted(&notes, number, Silent), |number| noted(&notes, number, number));
        rattle_host::print!(rt(1); "{}", value(2)).unwrap();
        rattle_host::println!(rt(3); "{}", value(4)).unwrap();
        rattle_host::eprint!(rt(5); "{}", value(6)).unwrap();
        rattle_host::eprintln!(rt(7); "{}", value(8)).unwrap();
        rattle_host::assert!(rt(9); value(10) == 10);
        rattle_host::assert_eq!(rt(11); value(12), value(13) - 1);
        rattle_host::assert_ne!(rt(14); value(15), value(16));
        assert_eq!(notes.take(), Vec::from_iter(1..=16));
    }
}
