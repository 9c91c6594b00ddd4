/// What code can do wrong, in lists: an enum `Slip` with a case for each, and a constant for each list.
macro_rules! slips {
    ($($(#[$doc:meta])* $list:ident: $($slip:ident),+;)+) => {
        #[derive(Clone, Copy, Debug)]
        enum Slip {
            $($($slip,)+)+
        }

        $(
            $(#[$doc])*
            const $list: &[Slip] = &[$(Slip::$slip,)+];
        )+
    };
}
pub(crate) use slips;
