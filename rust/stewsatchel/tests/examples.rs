//! The examples of the crate's documentation, run as they stand. Cargo runs no example of a
//! documentation where it builds for another machine than its own; this runs them everywhere.

mod read {
    include!("../examples/read.rs");

    #[test]
    fn a_script_is_read() {
        assert_eq!(main(), Ok(()));
    }
}

mod stopped {
    include!("../examples/stopped.rs");

    #[test]
    fn a_script_that_is_cut_is_stopped() {
        main();
    }
}

mod book {
    include!("../examples/book.rs");

    #[test]
    fn a_book_is_made() {
        assert_eq!(main(), Ok(()));
    }
}

mod remark {
    include!("../examples/remark.rs");

    #[test]
    fn a_remark_is_written() {
        assert_eq!(main(), Ok(()));
    }
}
