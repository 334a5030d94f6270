//! A closure behind a name, as `tiny_fn!` makes it.

#[macro_export]
macro_rules! tiny_fn {
    ($(#[$meta:meta])* pub struct $name:ident<$t:ident> = FnMut($($arg:ident: $type:ty),*) -> $answer:ty;) => {
        $(#[$meta])*
        pub struct $name<'closure, $t> {
            closure: ::std::boxed::Box<dyn FnMut($($type),*) -> $answer + 'closure>,
        }

        impl<'closure, $t> $name<'closure, $t> {
            pub fn new<F: FnMut($($type),*) -> $answer + 'closure>(closure: F) -> Self {
                Self {
                    closure: ::std::boxed::Box::new(closure),
                }
            }

            pub fn call(&mut self, $($arg: $type),*) -> $answer {
                (self.closure)($($arg),*)
            }
        }
    };
}
