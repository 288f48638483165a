//! The names of an eclipse's kinds and of its phases.

/// What an eclipse is at one place.
#[derive(Clone, Copy, Debug, PartialEq, Eq)]
pub enum Kind {
    Partial,
    Total,
    /// A ring of the Sun is left.
    Annular,
}

impl Kind {
    /// One word, for people and for tables that programs read.
    pub fn name(self) -> &'static str {
        match self {
            Kind::Partial => "partial",
            Kind::Total => "total",
            Kind::Annular => "annular",
        }
    }
}

#[derive(Clone, Copy, Debug, PartialEq, Eq)]
pub enum Phase {
    FirstContact,
    InnerBegins(Kind),
    Maximum,
    InnerEnds(Kind),
    LastContact,
    Sunrise,
    Sunset,
    /// Of a day without an eclipse.
    Nearest,
}

impl Phase {
    /// One word, or two for two lines.
    pub fn name(self) -> &'static str {
        match self {
            Phase::FirstContact => "first contact",
            Phase::InnerBegins(Kind::Annular) => "ring begins",
            Phase::InnerBegins(_) => "totality begins",
            Phase::Maximum => "maximum",
            Phase::InnerEnds(Kind::Annular) => "ring ends",
            Phase::InnerEnds(_) => "totality ends",
            Phase::LastContact => "last contact",
            Phase::Sunrise => "sunrise",
            Phase::Sunset => "sunset",
            Phase::Nearest => "nearest",
        }
    }

    /// For tables that programs read.
    pub fn key(self) -> String {
        self.name().replace(' ', "_")
    }

    /// What the Sun does where it crosses the horizon.
    pub fn verb(self) -> Option<&'static str> {
        match self {
            Phase::Sunrise => Some("rises"),
            Phase::Sunset => Some("sets"),
            _ => None,
        }
    }
}
