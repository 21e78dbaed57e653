//! e^x by the port's own function, under another name than `f64::exp`: build.sh puts it in its place.

extern "C" {
    /// e^−u, from the archive that `tools/build nakwemol` writes.
    fn nakwemol_exp_neg(u: f64) -> f64;
}

pub trait PortExp {
    fn port_exp(self) -> f64;
}

impl PortExp for f64 {
    /// e^x, for an x that is not above zero: the original asks for no other. Taking the minus away changes no digit.
    fn port_exp(self) -> f64 {
        // SAFETY: a number goes in and a number comes out; the function reads nothing else.
        unsafe { nakwemol_exp_neg(-self) }
    }
}
