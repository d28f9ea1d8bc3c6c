//! Stands in for the macro crate of this name, which node.rs of the crate names and which is not at hand.
//! `array_const_fn_init![f; N]` is the constant array f(0), f(1), .., f(N - 1).

#[macro_export]
macro_rules! array_const_fn_init {
    ($f:ident; $n:literal) => {{
        let mut array = [$f(0); $n];
        let mut i = 1;
        while i < $n {
            array[i] = $f(i);
            i += 1;
        }
        array
    }};
}
