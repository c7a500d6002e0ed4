//! What is done with each figure of a module: the module's list of them hands
//! over an import of the module, the implementation and the figures' names.

/// Defines one `#[test]` for each.
#[doc(hidden)]
#[macro_export]
macro_rules! test_each {
    ($import:item $implementation:expr; $($name:ident)*) => {
        $(
            #[test]
            fn $name() {
                $import
                figures::$name(&$implementation);
            }
        )*
    };
}

/// Runs each.
macro_rules! run_each {
    ($import:item $implementation:expr; $($name:ident)*) => {
        $import
        $( figures::$name($implementation); )*
    };
}
pub(crate) use run_each;
