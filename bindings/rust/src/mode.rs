// The mode of a step or a run, and settings in a mode.

/// How cells are relaxed. Step and run are told it; a record is not.
#[derive(Clone, Copy, Debug, Default, PartialEq, Eq, Hash)]
pub enum Mode {
    /// Every cell by p.
    #[default]
    Plain,
    /// Each cell by a p of its own, 1 to p, which its stress takes off p: water is damped where it is sheared.
    Turbulent,
}

impl Mode {
    /// As the library is told it.
    pub const fn is_turbulent(self) -> bool {
        matches!(self, Mode::Turbulent)
    }
}

/// Settings of the box or of the flume, and the mode in which steps are made with them. Settings alone are the plain mode.
#[derive(Clone, Copy, Debug, PartialEq, Eq, Hash)]
pub struct InMode<S> {
    pub settings: S,
    pub mode: Mode,
}

impl<S> From<S> for InMode<S> {
    fn from(settings: S) -> InMode<S> {
        InMode { settings, mode: Mode::Plain }
    }
}
