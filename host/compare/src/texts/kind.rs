//! What a text is loaded into.

listed!(
    /// The kinds of image.
    Kind: Program, Data, Preset
);

impl Kind {
    pub fn name(self) -> &'static str {
        match self {
            Kind::Program => "program",
            Kind::Data => "data ROM",
            Kind::Preset => "preset",
        }
    }

    pub fn cells(self) -> usize {
        match self {
            Kind::Program => bemulatsho::WORDS,
            Kind::Data => bemulatsho::CELLS,
            Kind::Preset => bemulatsho::RAM,
        }
    }

    /// Bytes of a cell.
    pub fn width(self) -> usize {
        match self {
            Kind::Program => 4,
            Kind::Data | Kind::Preset => 2,
        }
    }

    /// Bytes of an image.
    pub fn size(self) -> usize {
        self.cells() * self.width()
    }
}
